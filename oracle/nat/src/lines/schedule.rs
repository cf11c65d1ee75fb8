//! Instants: the given `BlastSchedule`, which is private, run inside a
//! circuit of its own. The circuit's upgrade deadline lies at 2^64 − 1, so
//! that no tick below it hides an instant, and the window's end is set by the
//! punch time; a window whose deadline comes before its start keeps that
//! deadline. What no circuit can meet (a reading at or past the deadline, a
//! round trip longer than the reading) is answered by the closed form alone.

use crate::agent::StreamInput;
use crate::budget::UpgradeBudget;
use crate::bursts::Instants;
use crate::circuit::{Answers, Circuit};
use crate::config::NatConfig;
use crate::text::Words;

#[derive(Default)]
pub(super) struct Schedule {
    instants: Option<Instants>,
    circuit: Option<Circuit>,
}

impl Schedule {
    pub(super) fn answer(&mut self, line: &[u8]) -> Option<String> {
        let mut words = Words::new(line);
        match words.word("do")? {
            b"reply" => {
                let at = words.number("at")?;
                let round_trip = words.number("rtt")?;
                let deadline = words.number("deadline")?;
                let punch = words.number("punch")?;
                let interval = words.number("interval")?;
                words.end(())?;
                Some(self.reply(at, round_trip, deadline, punch, interval))
            }
            b"tick" => {
                let at = words.number("at")?;
                let interval = words.number("interval")?;
                words.end(())?;
                let times = self.tick(at, interval);
                Some(format!("times={times} next={}", self.next()))
            }
            _ => None,
        }
    }

    fn reply(
        &mut self,
        at: u64,
        round_trip: u64,
        deadline: u64,
        punch: u64,
        interval: u64,
    ) -> String {
        let mut config = NatConfig {
            upgrade_timeout_ms: deadline,
            dcutr_exchange_timeout_ms: u64::MAX,
            punch_deadline_ms: punch,
            blast_interval_ms: interval,
            relay_timeout_ms: 0,
            ..NatConfig::default()
        };
        let start = at.saturating_add(round_trip.div_ceil(2));
        let end = UpgradeBudget::arm(0, &config, None).punch_window_end(start);
        if end >= start {
            config.upgrade_timeout_ms = u64::MAX;
            config.punch_deadline_ms = end - start;
        }
        let mut times = u64::from(round_trip == 0 && start <= end);
        self.instants = Some(Instants::new(start, end, interval, times));
        self.circuit = None;
        if at < config.upgrade_timeout_ms && round_trip <= at {
            let circuit = replied(config, at, at - round_trip);
            times = circuit.times;
            self.circuit = Some(circuit);
        }
        format!("times={times} start={start} end={end} next={}", self.next())
    }

    fn tick(&mut self, at: u64, interval: u64) -> u64 {
        let Some(instants) = &mut self.instants else {
            return 0;
        };
        let times = instants.send(at, interval);
        if at == u64::MAX {
            self.circuit = None;
        }
        if let Some(circuit) = &mut self.circuit {
            circuit.shared.config.blast_interval_ms = interval;
            circuit.tick(at, Answers::default());
            assert_eq!(circuit.times, times, "the closed form");
        }
        times
    }

    /// The next instant, which is the circuit's next deadline too.
    fn next(&self) -> String {
        let Some(instants) = &self.instants else {
            return "none".to_string();
        };
        let next = instants.next();
        if let Some(until) = self.circuit.as_ref().and_then(Circuit::next_deadline) {
            assert_eq!(until, next.unwrap_or(instants.end()), "the next deadline");
        }
        next.map_or("none".to_string(), |next| next.to_string())
    }
}

/// A circuit that sent CONNECT at `sent` and read a reply with one good
/// address at `at`.
fn replied(config: NatConfig, at: u64, sent: u64) -> Circuit {
    const REPLY: [u8; 16] = [
        0x0f, 0x08, 0x64, 0x12, 0x0b, 0x04, 192, 0, 0, 9, 0x91, 0x02, 0x0f, 0xa1, 0xcd, 0x03,
    ];
    let answers = Answers {
        live: Some(7),
        offer: Some((7, 4)),
        ..Answers::default()
    };
    let none = Answers::default;
    let mut circuit = Circuit::new(config);
    circuit.start(0, 5, 9, 7);
    circuit.up(0, 5, 7, true, answers);
    circuit.input(sent, 4, StreamInput::Ready, none());
    circuit.input(at, 4, StreamInput::Data(&REPLY), none());
    assert!(circuit.synced, "the reply opens a window");
    circuit
}
