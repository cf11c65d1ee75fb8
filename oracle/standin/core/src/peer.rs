//! Peers are 64-bit handles given by the host.

use core::fmt;

use crate::address::Multiaddr;

#[derive(Clone, Debug, Eq, Hash, Ord, PartialEq, PartialOrd)]
pub struct PeerId(pub u64);

impl PeerId {
    pub fn from_bytes(bytes: &[u8]) -> Result<Self, core::array::TryFromSliceError> {
        Ok(Self(u64::from_be_bytes(bytes.try_into()?)))
    }

    pub fn to_bytes(&self) -> Vec<u8> {
        self.0.to_be_bytes().to_vec()
    }
}

impl fmt::Display for PeerId {
    fn fmt(&self, f: &mut fmt::Formatter<'_>) -> fmt::Result {
        write!(f, "{}", self.0)
    }
}

#[derive(Clone, Copy, Debug, Eq, Hash, Ord, PartialEq, PartialOrd)]
pub struct ConnectId(pub u64);

/// A relay's handle stands in place of its address.
#[derive(Clone, Debug, Eq, PartialEq)]
pub struct PeerAddr(pub PeerId);

impl PeerAddr {
    pub fn peer_id(&self) -> &PeerId {
        &self.0
    }

    pub fn transport(&self) -> &Multiaddr {
        unreachable!("no driver dials")
    }
}

#[derive(Clone, Debug, Eq, PartialEq)]
pub enum Path {
    Direct,
    Punched,
    Relayed { relay: PeerId },
}

#[derive(Clone, Debug)]
pub struct Bytes(Vec<u8>);

impl From<Vec<u8>> for Bytes {
    fn from(bytes: Vec<u8>) -> Self {
        Self(bytes)
    }
}

impl core::ops::Deref for Bytes {
    type Target = [u8];

    fn deref(&self) -> &[u8] {
        &self.0
    }
}
