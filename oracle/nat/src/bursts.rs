//! Datagrams folded into bursts, and the count of instants in closed form.

use minip2p_core::Multiaddr;

use crate::text::hex;

/// Instants that a tick may send through the Rust's own loop. Past it the
/// loop takes one step and the closed form gives the count.
pub(crate) const LOOP_LIMIT: u64 = 4_000;

/// Datagrams of one answer as `(times, list)`: the list ends where its first
/// entry comes again.
pub(crate) fn fold(datagrams: &[Multiaddr]) -> (u64, &[Multiaddr]) {
    let first = &datagrams[0];
    let len = datagrams[1..]
        .iter()
        .position(|entry| entry.same_entry(first))
        .map_or(datagrams.len(), |at| at + 1);
    for (at, entry) in datagrams.iter().enumerate() {
        assert!(
            entry.same_entry(&datagrams[at % len]),
            "the datagrams are no list sent again and again"
        );
    }
    assert_eq!(datagrams.len() % len, 0, "the last list is cut short");
    ((datagrams.len() / len) as u64, &datagrams[..len])
}

pub(crate) fn burst(times: u64, payload: usize, list: &[Multiaddr]) -> String {
    let targets: Vec<String> = list.iter().map(|entry| hex(&entry.to_bytes())).collect();
    format!(
        "burst times={times} payload={payload} target={}",
        targets.join(",")
    )
}

/// What is left of a window's instants, in closed form: from the start on,
/// one interval apart, the last no later than the end.
#[derive(Clone, Copy, Debug)]
pub(crate) struct Instants {
    /// The first instant not sent, if it is no later than the end.
    next: u128,
    end: u64,
}

fn step(interval: u64) -> u128 {
    interval.max(1).into()
}

impl Instants {
    /// A window's instants after the first `sent` of them.
    pub(crate) fn new(start: u64, end: u64, interval: u64, sent: u64) -> Self {
        Self {
            next: u128::from(start) + u128::from(sent) * step(interval),
            end,
        }
    }

    /// How many instants are not sent and no later than `now`.
    pub(crate) fn due(&self, now: u64, interval: u64) -> u64 {
        match u128::from(self.end.min(now)).checked_sub(self.next) {
            None => 0,
            Some(span) => u64::try_from(span / step(interval) + 1).unwrap_or(u64::MAX),
        }
    }

    /// Sends those and returns how many they were.
    pub(crate) fn send(&mut self, now: u64, interval: u64) -> u64 {
        let due = self.due(now, interval);
        self.next += u128::from(due) * step(interval);
        due
    }

    pub(crate) fn next(&self) -> Option<u64> {
        u64::try_from(self.next)
            .ok()
            .filter(|next| *next <= self.end)
    }

    pub(crate) fn end(&self) -> u64 {
        self.end
    }
}
