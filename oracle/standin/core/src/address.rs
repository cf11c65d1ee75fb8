//! Addresses: ip4 (04) or ip6 (29), udp (91 02) with its port, the high byte
//! first, and quic-v1 (cd 03); behind that nothing, or p2p (a5 03) with a peer
//! name of 1 to 127 bytes behind its length byte, whole. Other bytes are no
//! address.

use std::rc::Rc;

#[derive(Clone, Debug, Eq, PartialEq)]
pub enum Protocol {
    Ip4([u8; 4]),
    Ip6([u8; 16]),
    Udp(u16),
    QuicV1,
    P2p(Vec<u8>),
    Dns(String),
    Dns4(String),
    Dns6(String),
}

#[derive(Debug)]
pub struct MultiaddrError;

/// An address of the rule's form. Copies share one place in memory, so
/// that a driver can tell a list's entry sent again from an equal entry
/// beside it; equality looks at the address alone.
#[derive(Clone, Debug)]
pub struct Multiaddr(Rc<[Protocol]>);

impl PartialEq for Multiaddr {
    fn eq(&self, other: &Self) -> bool {
        self.0 == other.0
    }
}

impl Eq for Multiaddr {}

const UDP: [u8; 2] = [0x91, 0x02];
const QUIC_V1: [u8; 2] = [0xcd, 0x03];
const P2P: [u8; 2] = [0xa5, 0x03];
const LONGEST_NAME: u8 = 127;

impl Multiaddr {
    pub fn from_bytes(bytes: &[u8]) -> Result<Self, MultiaddrError> {
        let (ip, rest) = match *bytes {
            [0x04, a, b, c, d, ref rest @ ..] => (Protocol::Ip4([a, b, c, d]), rest),
            [0x29, ref rest @ ..] if rest.len() >= 16 => {
                let (ip, rest) = rest.split_at(16);
                (Protocol::Ip6(ip.try_into().expect("sixteen")), rest)
            }
            _ => return Err(MultiaddrError),
        };
        let &[u0, u1, p0, p1, q0, q1, ref name @ ..] = rest else {
            return Err(MultiaddrError);
        };
        if [u0, u1] != UDP || [q0, q1] != QUIC_V1 {
            return Err(MultiaddrError);
        }
        let port = Protocol::Udp(u16::from_be_bytes([p0, p1]));
        let mut protocols = vec![ip, port, Protocol::QuicV1];
        if !name.is_empty() {
            protocols.push(Protocol::P2p(peer_name(name)?));
        }
        Ok(Self(protocols.into()))
    }

    pub fn to_bytes(&self) -> Vec<u8> {
        let mut out = Vec::new();
        for protocol in self.0.iter() {
            match protocol {
                Protocol::Ip4(ip) => {
                    out.push(0x04);
                    out.extend_from_slice(ip);
                }
                Protocol::Ip6(ip) => {
                    out.push(0x29);
                    out.extend_from_slice(ip);
                }
                Protocol::Udp(port) => {
                    out.extend_from_slice(&UDP);
                    out.extend_from_slice(&port.to_be_bytes());
                }
                Protocol::QuicV1 => out.extend_from_slice(&QUIC_V1),
                Protocol::P2p(name) => {
                    out.extend_from_slice(&P2P);
                    out.push(name.len() as u8);
                    out.extend_from_slice(name);
                }
                Protocol::Dns(_) | Protocol::Dns4(_) | Protocol::Dns6(_) => {
                    unreachable!("no address of the form names a host")
                }
            }
        }
        out
    }

    pub fn protocols(&self) -> &[Protocol] {
        &self.0
    }

    /// Every address of the form is one, with a peer name or without.
    pub fn is_quic_transport(&self) -> bool {
        true
    }

    /// Whether both are copies of one entry.
    pub fn same_entry(&self, other: &Self) -> bool {
        Rc::ptr_eq(&self.0, &other.0)
    }
}

/// The peer name behind quic-v1, whole.
fn peer_name(bytes: &[u8]) -> Result<Vec<u8>, MultiaddrError> {
    let &[p0, p1, len, ref name @ ..] = bytes else {
        return Err(MultiaddrError);
    };
    let fits = (1..=LONGEST_NAME).contains(&len) && name.len() == usize::from(len);
    if [p0, p1] != P2P || !fits {
        return Err(MultiaddrError);
    }
    Ok(name.to_vec())
}

/// Passes every address on.
pub fn select_direct_addrs(
    addrs: &[Multiaddr],
    _observed: Option<Multiaddr>,
    _own: Option<&Multiaddr>,
) -> Vec<Multiaddr> {
    addrs.to_vec()
}
