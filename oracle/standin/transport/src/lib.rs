//! Stand-in for `minip2p_transport`: the numbers of connections and streams.
//! No transport runs; the errors are only named by the given source.

#[derive(Clone, Copy, Debug, Eq, Hash, Ord, PartialEq, PartialOrd)]
pub struct ConnectionId(pub u64);

#[derive(Clone, Copy, Debug, Eq, Hash, Ord, PartialEq, PartialOrd)]
pub struct StreamId(pub u64);

pub trait Transport {}

#[derive(Debug)]
pub enum TransportError {
    StreamNotFound { stream: StreamId },
    ConnectionNotFound { conn: ConnectionId },
    ConnectionClosed { conn: ConnectionId },
    InvalidState { reason: &'static str },
    Other,
}
