//! One circuit of the given Rust between a host that answers from the
//! journal line and a log of what it does.

use std::rc::Rc;

use minip2p_core::platform::Now;
use minip2p_core::{Bytes, Multiaddr, PeerAddr, PeerId};
use minip2p_swarm::DriverError;
use minip2p_transport::{ConnectionId, StreamId};

use crate::agent::{Effect, Log, Shared, StreamInput};
use crate::bursts::{self, Instants, LOOP_LIMIT};
use crate::config::NatConfig;
use crate::events::{NatAction, NatEvent};
use crate::inbound::InboundCircuit;
use crate::swarm::{BridgeHandoff, DialStart, NatSwarm, NatSwarmError};
use crate::text::hex;
use crate::types::{NatToken, PromoteError};

/// The host's answers, carried by the call.
#[derive(Clone, Debug, Default)]
pub(crate) struct Answers {
    pub(crate) live: Option<u64>,
    pub(crate) offer: Option<(u64, u64)>,
    pub(crate) pending: bool,
    pub(crate) own: Vec<Vec<u8>>,
}

struct Swarm {
    answers: Answers,
    /// The connection that a promoted bridge gets.
    circuit: u64,
    log: Log,
}

impl NatSwarm for Swarm {
    fn connection(&self, _peer: &PeerId) -> Option<ConnectionId> {
        self.answers.live.map(ConnectionId)
    }

    fn readiness(&self, _peer: &PeerId) -> Option<(ConnectionId, &[String])> {
        None
    }

    fn connection_remote_addr(&self, _conn: ConnectionId) -> Option<&Multiaddr> {
        None
    }

    fn dial(&mut self, _addr: &PeerAddr, _token: NatToken) -> Result<DialStart, NatSwarmError> {
        Err(DriverError::Swarm("a circuit dials nothing").into())
    }

    fn open_stream(
        &mut self,
        _peer: &PeerId,
        _protocol: &str,
        _now_ms: u64,
    ) -> Result<(ConnectionId, StreamId), NatSwarmError> {
        let (conn, stream) = self
            .answers
            .offer
            .ok_or(DriverError::Swarm("no stream offered"))?;
        let opened = (ConnectionId(conn), StreamId(stream));
        self.log.borrow_mut().push(Effect::Open(opened.0, opened.1));
        Ok(opened)
    }

    fn send_stream(
        &mut self,
        _peer: &PeerId,
        conn: ConnectionId,
        stream: StreamId,
        data: Bytes,
        _now_ms: u64,
    ) -> Result<(), NatSwarmError> {
        self.log
            .borrow_mut()
            .push(Effect::Send(conn, stream, data.to_vec()));
        Ok(())
    }

    fn write_pending(&self, _conn: ConnectionId, _stream: StreamId) -> bool {
        self.answers.pending
    }

    fn close_stream_write(
        &mut self,
        _peer: &PeerId,
        _conn: ConnectionId,
        _stream: StreamId,
        _now_ms: u64,
    ) -> Result<(), NatSwarmError> {
        unreachable!("only a refused STOP closes its write side")
    }

    fn reset_stream(
        &mut self,
        _peer: &PeerId,
        conn: ConnectionId,
        stream: StreamId,
        _now_ms: u64,
    ) -> Result<(), NatSwarmError> {
        self.log.borrow_mut().push(Effect::Reset(conn, stream));
        Ok(())
    }

    fn ping(&mut self, _peer: &PeerId, _now_ms: u64) -> Result<(), NatSwarmError> {
        unreachable!("a circuit sends no ping")
    }

    fn promote_bridge(
        &mut self,
        _handoff: BridgeHandoff,
        _now_ms: u64,
    ) -> Result<ConnectionId, PromoteError> {
        Ok(ConnectionId(self.circuit))
    }
}

/// When the running exchange's CONNECT counts as sent.
#[derive(Clone, Copy)]
enum Connect {
    Unsent,
    Held,
    Sent(u64),
}

/// What the driver follows beside the Rust, from the Rust's own effects: the
/// running exchange's pair, for number 2, and the window's instants, for
/// bursts past the loop's limit.
#[derive(Clone, Copy)]
struct Followed {
    pair: Option<(u64, u64)>,
    connect: Connect,
    deadline: u64,
    window: Option<Instants>,
}

pub(crate) struct Circuit {
    machine: Option<InboundCircuit>,
    swarm: Swarm,
    pub(crate) shared: Shared,
    log: Log,
    followed: Followed,
    /// SYNC went out in the last call.
    pub(crate) synced: bool,
    /// The repeat number of the last call's burst, 0 without one.
    pub(crate) times: u64,
    /// What the last established connection's call answered: whether the
    /// circuit took it. Cleared by the caller before each line.
    pub(crate) took: bool,
}

const STOP_CONN: ConnectionId = ConnectionId(0);
const STOP_STREAM: StreamId = StreamId(0);

fn now(at: u64) -> Now {
    Now { monotonic_ms: at }
}

impl Circuit {
    /// No circuit yet, and an empty ledger.
    pub(crate) fn new(config: NatConfig) -> Self {
        let log: Log = Rc::default();
        Self {
            machine: None,
            swarm: Swarm {
                answers: Answers::default(),
                circuit: 0,
                log: log.clone(),
            },
            shared: Shared::new(config, log.clone()),
            log,
            followed: Followed {
                pair: None,
                connect: Connect::Unsent,
                deadline: 0,
                window: None,
            },
            synced: false,
            times: 0,
            took: false,
        }
    }

    /// Puts a new circuit in place, through STOP to its handshake. The
    /// caller has checked that now + handshake fits.
    pub(crate) fn start(&mut self, at: u64, source: u64, relay: u64, circuit: u64) {
        self.swarm.circuit = circuit;
        let relay = PeerId(relay);
        let mut machine =
            InboundCircuit::new(0, STOP_CONN, relay, STOP_STREAM, &self.shared, now(at));
        machine.on_stream_input(
            STOP_CONN,
            STOP_STREAM,
            StreamInput::Data(&PeerId(source).to_bytes()),
            &mut self.swarm,
            &mut self.shared,
            now(at),
        );
        assert!(machine.promotes(ConnectionId(circuit)) && !machine.is_done());
        self.machine = Some(machine);
        self.followed.pair = None;
        self.followed.window = None;
    }

    /// The running exchange's pair.
    pub(crate) fn pair(&self) -> Option<(u64, u64)> {
        self.followed.pair
    }

    pub(crate) fn started(&self) -> bool {
        self.machine.is_some()
    }

    /// No circuit runs: none was started, or it is done.
    pub(crate) fn over(&self) -> bool {
        self.machine.as_ref().is_none_or(InboundCircuit::is_done)
    }

    /// The running exchange's CONNECT went out.
    pub(crate) fn asked(&self) -> bool {
        !matches!(self.followed.connect, Connect::Unsent)
    }

    /// The circuit stands in a punch window.
    pub(crate) fn punching(&self) -> bool {
        self.followed.window.is_some()
    }

    /// The last upgrade deadline armed.
    pub(crate) fn deadline(&self) -> u64 {
        self.followed.deadline
    }

    pub(crate) fn claim(&self, conn: u64) -> Option<crate::ledger::Claim> {
        self.machine().circuit_claim(ConnectionId(conn))
    }

    pub(crate) fn next_deadline(&self) -> Option<u64> {
        self.machine().next_deadline()
    }

    /// The next deadline, and whether the circuit promotes and whether it
    /// claims the connection of its own number; none of it before a start.
    pub(crate) fn questions(&self) -> (Option<u64>, bool, bool) {
        let Some(machine) = &self.machine else {
            return (None, false, false);
        };
        let own = ConnectionId(self.swarm.circuit);
        (
            machine.next_deadline(),
            machine.promotes(own),
            machine.circuit_claim(own).is_some(),
        )
    }

    fn machine(&self) -> &InboundCircuit {
        self.machine.as_ref().expect("started")
    }

    pub(crate) fn up(
        &mut self,
        at: u64,
        peer: u64,
        conn: u64,
        circuit: bool,
        answers: Answers,
    ) -> Vec<String> {
        let mut took = false;
        let out = self.call(at, answers, 0, |machine, swarm, shared| {
            took = machine.on_connection_established(
                &PeerId(peer),
                ConnectionId(conn),
                circuit,
                swarm,
                shared,
                now(at),
            );
        });
        self.took = took;
        out
    }

    pub(crate) fn input(
        &mut self,
        at: u64,
        stream: u64,
        input: StreamInput<'_>,
        answers: Answers,
    ) -> Vec<String> {
        self.call(at, answers, 0, |machine, swarm, shared| {
            machine.on_dcutr_stream_input(StreamId(stream), input, swarm, shared, now(at));
        })
    }

    /// The circuit's tick; the ledger's is the caller's. A tick that would
    /// send more instants than the loop's limit runs with the interval
    /// stretched over all of them, so that the Rust's loop takes one step and
    /// stands where all of them would leave it; the count is then the closed
    /// form's. Below the limit the loop's own count is held against it.
    pub(crate) fn tick(&mut self, at: u64, answers: Answers) -> Vec<String> {
        let interval = self.shared.config.blast_interval_ms;
        let due = match &mut self.followed.window {
            Some(window) if at < self.followed.deadline => window.send(at, interval),
            _ => 0,
        };
        if due > LOOP_LIMIT {
            self.shared.config.blast_interval_ms = interval.max(1).saturating_mul(due);
        }
        let out = self.call(at, answers, due, |machine, swarm, shared| {
            machine.on_tick(swarm, shared, now(at));
        });
        self.shared.config.blast_interval_ms = interval;
        out
    }

    pub(crate) fn wrote(&mut self, at: u64, conn: u64, stream: u64) -> Vec<String> {
        if self.followed.pair == Some((conn, stream))
            && matches!(self.followed.connect, Connect::Held)
        {
            self.followed.connect = Connect::Sent(at);
        }
        self.call(at, Answers::default(), 0, |machine, _, _| {
            machine.on_write_completed(ConnectionId(conn), StreamId(stream), now(at));
        })
    }

    pub(crate) fn down(&mut self, at: u64, peer: u64, conn: u64) -> Vec<String> {
        self.call(at, Answers::default(), 0, |machine, _, _| {
            machine.on_connection_closed(&PeerId(peer), ConnectionId(conn));
        })
    }

    /// Runs one call of the Rust, which finds `due` instants to send, and
    /// renders what it did.
    fn call(
        &mut self,
        at: u64,
        answers: Answers,
        due: u64,
        run: impl FnOnce(&mut InboundCircuit, &mut Swarm, &mut Shared),
    ) -> Vec<String> {
        self.shared.own = answers
            .own
            .iter()
            .filter_map(|bytes| Multiaddr::from_bytes(bytes).ok())
            .collect();
        self.swarm.answers = answers;
        run(
            self.machine.as_mut().expect("started"),
            &mut self.swarm,
            &mut self.shared,
        );
        let effects = std::mem::take(&mut *self.log.borrow_mut());
        self.render(at, effects, due)
    }

    fn render(&mut self, at: u64, effects: Vec<Effect>, due: u64) -> Vec<String> {
        let mut out = Vec::new();
        let mut datagrams = Vec::new();
        let mut payload = 0;
        let mut bursts = Vec::new();
        self.synced = false;
        self.times = 0;
        for effect in effects {
            if let Effect::Action(NatAction::SendRandomUdp {
                target,
                payload_len,
            }) = effect
            {
                if datagrams.is_empty() {
                    bursts.push(out.len());
                    out.push(String::new());
                }
                assert_eq!(bursts.last(), Some(&(out.len() - 1)), "two bursts");
                datagrams.push(target);
                payload = payload_len;
                continue;
            }
            out.push(match effect {
                Effect::Event(event) => self.event(at, event),
                Effect::Action(NatAction::CloseCircuit { conn_id }) => {
                    format!("close conn={}", conn_id.0)
                }
                Effect::Action(NatAction::SendRandomUdp { .. }) => unreachable!("gathered above"),
                Effect::Open(conn, stream) => {
                    self.followed.pair = Some((conn.0, stream.0));
                    self.followed.connect = Connect::Unsent;
                    self.followed.window = None;
                    format!("open conn={} stream={}", conn.0, stream.0)
                }
                Effect::Send(conn, stream, data) => {
                    self.sent(at);
                    format!(
                        "send conn={} stream={} data={}",
                        conn.0,
                        stream.0,
                        hex(&data)
                    )
                }
                Effect::Reset(conn, stream) => {
                    self.followed.pair = None;
                    format!("reset conn={} stream={}", conn.0, stream.0)
                }
            });
        }
        if let [place] = bursts[..] {
            let (looped, list) = bursts::fold(&datagrams);
            let times = if self.synced { 1 } else { due };
            let expected = if times > LOOP_LIMIT { 1 } else { times };
            assert_eq!(looped, expected, "the closed form of {times} instants");
            out[place] = bursts::burst(times, payload, list);
            self.times = times;
        }
        if self.machine().is_done() {
            self.followed.pair = None;
            self.followed.window = None;
        }
        out
    }

    /// CONNECT or SYNC went out.
    fn sent(&mut self, at: u64) {
        let round_trip = match self.followed.connect {
            Connect::Unsent => {
                self.followed.connect = if self.swarm.answers.pending {
                    Connect::Held
                } else {
                    Connect::Sent(at)
                };
                return;
            }
            Connect::Held => 0,
            Connect::Sent(sent) => at.saturating_sub(sent),
        };
        self.synced = true;
        let start = at.saturating_add(round_trip.div_ceil(2));
        let end = start
            .saturating_add(self.shared.config.punch_deadline_ms)
            .min(self.followed.deadline);
        let sent = u64::from(round_trip == 0);
        let interval = self.shared.config.blast_interval_ms;
        self.followed.window = Some(Instants::new(start, end, interval, sent));
    }

    fn event(&mut self, at: u64, event: NatEvent) -> String {
        match event {
            NatEvent::InboundPathEstablished {
                peer,
                path: crate::Path::Relayed { relay },
                conn_id,
            } => {
                let upgrade = self.shared.config.upgrade_timeout_ms;
                self.followed.deadline = at.saturating_add(upgrade);
                format!("path peer={peer} relay={relay} conn={}", conn_id.0)
            }
            NatEvent::InboundDirectUpgrade {
                peer,
                old_conn_id,
                new_conn_id,
            } => {
                format!(
                    "upgrade peer={peer} old={} new={}",
                    old_conn_id.0, new_conn_id.0
                )
            }
            other => unreachable!("no circuit makes {other:?}"),
        }
    }
}
