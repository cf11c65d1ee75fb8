//! Stand-in for the parts of the agent that the circuit uses. Actions,
//! events and swarm commands go into one log, in the order they are made.

use std::cell::RefCell;
use std::collections::BTreeMap;
use std::rc::Rc;

use minip2p_core::platform::Now;
use minip2p_core::{Bytes, Multiaddr, PeerId};
use minip2p_transport::{ConnectionId, StreamId};

use crate::config::NatConfig;
use crate::events::{NatAction, NatEvent};
use crate::ledger::PathLedger;
use crate::swarm::NatSwarm;

#[derive(Clone, Debug)]
pub(crate) enum Effect {
    Action(NatAction),
    Event(NatEvent),
    Open(ConnectionId, StreamId),
    Send(ConnectionId, StreamId, Vec<u8>),
    Reset(ConnectionId, StreamId),
}

pub(crate) type Log = Rc<RefCell<Vec<Effect>>>;

#[derive(Clone, Copy, Debug)]
#[allow(dead_code)]
pub(crate) enum StreamRole {
    DcutrInbound(u64),
    RejectedControl,
}

#[derive(Clone, Copy, Debug)]
pub(crate) enum StreamInput<'a> {
    Ready,
    Data(&'a [u8]),
    RemoteWriteClosed,
    Closed,
}

pub(crate) struct Shared {
    pub(crate) config: NatConfig,
    pub(crate) ledger: PathLedger,
    /// The addresses of the call's own list.
    pub(crate) own: Vec<Multiaddr>,
    pub(crate) log: Log,
    streams: BTreeMap<(ConnectionId, StreamId), PeerId>,
}

impl Shared {
    pub(crate) fn new(config: NatConfig, log: Log) -> Self {
        Self {
            config,
            ledger: PathLedger::default(),
            own: Vec::new(),
            log,
            streams: BTreeMap::new(),
        }
    }

    pub(crate) fn push_action(&mut self, action: NatAction) {
        self.log.borrow_mut().push(Effect::Action(action));
    }

    pub(crate) fn push_event(&mut self, event: NatEvent) {
        self.log.borrow_mut().push(Effect::Event(event));
    }

    /// There is always room: the rule leaves the circuit limit out.
    pub(crate) fn reserve_circuit(&mut self, _swarm: &dyn NatSwarm) -> bool {
        true
    }

    pub(crate) fn own_stream(
        &mut self,
        peer: &PeerId,
        conn: ConnectionId,
        stream: StreamId,
        _role: StreamRole,
    ) {
        self.streams.insert((conn, stream), peer.clone());
    }

    pub(crate) fn release_stream(&mut self, conn: ConnectionId, stream: StreamId) {
        self.streams.remove(&(conn, stream));
    }

    pub(crate) fn reset_owned_stream(
        &mut self,
        swarm: &mut dyn NatSwarm,
        conn: ConnectionId,
        stream: StreamId,
        now: Now,
    ) {
        if let Some(peer) = self.streams.remove(&(conn, stream)) {
            reset(swarm, &peer, conn, stream, now);
        }
    }

    /// Own candidates: each address form once, then bounded.
    pub(crate) fn punch_candidates(&self) -> Vec<Multiaddr> {
        let mut once: Vec<Multiaddr> = Vec::new();
        for address in self.own.iter().filter(|own| own.is_quic_transport()) {
            if !once.contains(address) {
                once.push(address.clone());
            }
        }
        crate::inbound::bound_punch_candidates(once)
    }
}

pub(crate) fn send(
    swarm: &mut dyn NatSwarm,
    peer: &PeerId,
    conn: ConnectionId,
    stream: StreamId,
    data: Vec<u8>,
    now: Now,
) {
    let data = Bytes::from(data);
    let _ = swarm.send_stream(peer, conn, stream, data, now.monotonic_ms);
}

pub(crate) fn close_write(
    swarm: &mut dyn NatSwarm,
    peer: &PeerId,
    conn: ConnectionId,
    stream: StreamId,
    now: Now,
) {
    let _ = swarm.close_stream_write(peer, conn, stream, now.monotonic_ms);
}

pub(crate) fn reset(
    swarm: &mut dyn NatSwarm,
    peer: &PeerId,
    conn: ConnectionId,
    stream: StreamId,
    now: Now,
) {
    let _ = swarm.reset_stream(peer, conn, stream, now.monotonic_ms);
}
