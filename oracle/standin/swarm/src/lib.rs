//! Stand-in for `minip2p_swarm`: what the given `swarm.rs` names. Nothing
//! here runs; the drivers bring a `NatSwarm` of their own.

use std::marker::PhantomData;

use minip2p_core::{Bytes, Multiaddr, PeerAddr, PeerId};
use minip2p_transport::{ConnectionId, StreamId, Transport, TransportError};

#[derive(Debug)]
pub enum DriverError {
    Full { unsent: Bytes, stream: StreamId },
    Transport(TransportError),
    Swarm(&'static str),
}

pub trait EntropySource {}

pub struct Held {
    pub tails: Vec<Bytes>,
    pub close: bool,
}

#[derive(Default)]
pub struct HeldWrites;

impl HeldWrites {
    pub fn take(&mut self, _conn: ConnectionId, _stream: StreamId) -> Option<Held> {
        None
    }

    pub fn push(&mut self, _conn: ConnectionId, _stream: StreamId, _data: Bytes, _counted: usize) {}

    pub fn is_held(&self, _conn: ConnectionId, _stream: StreamId) -> bool {
        false
    }

    pub fn held_bytes(&self, _conn: ConnectionId, _stream: StreamId) -> usize {
        0
    }

    pub fn close_after(&mut self, _conn: ConnectionId, _stream: StreamId) -> bool {
        false
    }

    pub fn forget_stream(&mut self, _conn: ConnectionId, _stream: StreamId) {}
}

pub struct PeerInfo {
    pub protocols: Vec<String>,
}

pub struct SwarmCore<T, E> {
    parts: PhantomData<(T, E)>,
}

const NOT_RUN: DriverError = DriverError::Swarm("the stand-in runs no swarm");

impl<T: Transport, E: EntropySource> SwarmCore<T, E> {
    pub fn is_peer_connected(&self, _peer: &PeerId) -> bool {
        false
    }

    pub fn connection_id(&self, _peer: &PeerId) -> Option<ConnectionId> {
        None
    }

    pub fn peer_readiness(&self, _peer: &PeerId) -> Option<(ConnectionId, &PeerInfo)> {
        None
    }

    pub fn connection_remote_addr(&self, _conn: ConnectionId) -> Option<&Multiaddr> {
        None
    }

    pub fn dial(&mut self, _addr: &PeerAddr) -> Result<ConnectionId, DriverError> {
        Err(NOT_RUN)
    }

    pub fn open_stream(
        &mut self,
        _peer: &PeerId,
        _protocol: &str,
        _now_ms: u64,
    ) -> Result<(ConnectionId, StreamId), DriverError> {
        Err(NOT_RUN)
    }

    pub fn send_stream(
        &mut self,
        _peer: &PeerId,
        _conn: ConnectionId,
        _stream: StreamId,
        _data: Bytes,
        _now_ms: u64,
    ) -> Result<(), DriverError> {
        Err(NOT_RUN)
    }

    pub fn close_stream_write(
        &mut self,
        _peer: &PeerId,
        _conn: ConnectionId,
        _stream: StreamId,
        _now_ms: u64,
    ) -> Result<(), DriverError> {
        Err(NOT_RUN)
    }

    pub fn reset_stream(
        &mut self,
        _peer: &PeerId,
        _conn: ConnectionId,
        _stream: StreamId,
        _now_ms: u64,
    ) -> Result<(), DriverError> {
        Err(NOT_RUN)
    }

    pub fn ping(&mut self, _peer: &PeerId, _now_ms: u64) -> Result<(), DriverError> {
        Err(NOT_RUN)
    }
}
