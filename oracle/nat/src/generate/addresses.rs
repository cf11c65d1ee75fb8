//! Addresses at the edges of the refused ranges.

use super::rng::Rng;

/// Prefixes that the rule names for IPv4, and the classes around them.
const V4: &[(u32, u32)] = &[
    (0x0000_0000, 8),
    (0x0000_0000, 32),
    (0x0a00_0000, 8),
    (0xac10_0000, 12),
    (0xc0a8_0000, 16),
    (0x6440_0000, 10),
    (0x7f00_0000, 8),
    (0xa9fe_0000, 16),
    (0xc000_0000, 24),
    (0xc000_0009, 32),
    (0xc000_000a, 32),
    (0xc000_0200, 24),
    (0xc633_6400, 24),
    (0xcb00_7100, 24),
    (0xc612_0000, 15),
    (0xe000_0000, 4),
    (0xf000_0000, 4),
    (0xffff_ffff, 32),
    (0xc058_6300, 24),
];

/// Prefixes that the rule names for IPv6, and others that the Rust treats
/// as ordinary.
const V6: &[(u128, u32)] = &[
    (0x2000_0000_0000_0000_0000_0000_0000_0000, 3),
    (0x2002_0000_0000_0000_0000_0000_0000_0000, 16),
    (0x2001_0db8_0000_0000_0000_0000_0000_0000, 32),
    (0x3fff_0000_0000_0000_0000_0000_0000_0000, 20),
    (0x2001_0000_0000_0000_0000_0000_0000_0000, 23),
    (0x2001_0001_0000_0000_0000_0000_0000_0001, 128),
    (0x2001_0001_0000_0000_0000_0000_0000_0002, 128),
    (0x2001_0001_0000_0000_0000_0000_0000_0003, 128),
    (0x2001_0003_0000_0000_0000_0000_0000_0000, 32),
    (0x2001_0004_0112_0000_0000_0000_0000_0000, 48),
    (0x2001_0020_0000_0000_0000_0000_0000_0000, 28),
    (0x2001_0030_0000_0000_0000_0000_0000_0000, 28),
    (0x0000_0000_0000_0000_0000_0000_0000_0000, 128),
    (0x0000_0000_0000_0000_0000_0000_0000_0001, 128),
    (0x0000_0000_0000_0000_0000_ffff_0000_0000, 96),
    (0x0064_ff9b_0000_0000_0000_0000_0000_0000, 96),
    (0xfc00_0000_0000_0000_0000_0000_0000_0000, 7),
    (0xfe80_0000_0000_0000_0000_0000_0000_0000, 10),
    (0xff00_0000_0000_0000_0000_0000_0000_0000, 8),
];

/// First − 1, first, last and last + 1 of every range.
pub fn v4_edges() -> Vec<u32> {
    let ends = |&(first, len): &(u32, u32)| {
        let last = first | u32::MAX.checked_shr(len).unwrap_or(0);
        [first.wrapping_sub(1), first, last, last.wrapping_add(1)]
    };
    unique(V4.iter().flat_map(ends).collect())
}

pub fn v6_edges() -> Vec<u128> {
    let ends = |&(first, len): &(u128, u32)| {
        let last = first | u128::MAX.checked_shr(len).unwrap_or(0);
        [first.wrapping_sub(1), first, last, last.wrapping_add(1)]
    };
    let mapped = v4_edges()
        .into_iter()
        .map(|ip| 0xffff_0000_0000 | u128::from(ip));
    unique(V6.iter().flat_map(ends).chain(mapped).collect())
}

fn unique<T: Ord>(mut found: Vec<T>) -> Vec<T> {
    found.sort_unstable();
    found.dedup();
    found
}

pub fn v4(ip: u32, port: u16) -> Vec<u8> {
    with_port([&[0x04][..], &ip.to_be_bytes()].concat(), port)
}

pub fn v6(ip: u128, port: u16) -> Vec<u8> {
    with_port([&[0x29][..], &ip.to_be_bytes()].concat(), port)
}

fn with_port(mut address: Vec<u8>, port: u16) -> Vec<u8> {
    address.extend_from_slice(&[0x91, 0x02]);
    address.extend_from_slice(&port.to_be_bytes());
    address.extend_from_slice(&[0xcd, 0x03]);
    address
}

/// An address with a peer name behind it.
pub fn named(mut address: Vec<u8>, name: &[u8]) -> Vec<u8> {
    address.extend_from_slice(&[0xa5, 0x03, name.len() as u8]);
    address.extend_from_slice(name);
    address
}

/// The same with a name of few lengths and few different bytes, so that one
/// address comes under several names.
fn perhaps_named(rng: &mut Rng, address: Vec<u8>) -> Vec<u8> {
    if rng.one_in(2) {
        return address;
    }
    let len = rng.pick(&[1, 2, 34, 38, 126, 127, 127, 0, 128]);
    let byte = rng.pick(&[0x12, 0xa5, 0xff]);
    named(address, &vec![byte; len])
}

fn port(rng: &mut Rng) -> u16 {
    match rng.below(8) {
        0 => rng.pick(&[0, 1, 1023, 1024, 1025, 65535]),
        1 => rng.draw() as u16,
        _ => 4001 + rng.below(3) as u16,
    }
}

/// An address that usually passes, from few IPs so that the limits are met.
fn common(rng: &mut Rng) -> Vec<u8> {
    let port = port(rng);
    let address = if rng.one_in(2) {
        v4(0x0808_0800 + rng.below(5) as u32, port)
    } else {
        v6((0x2600 << 112) + u128::from(rng.below(5)), port)
    };
    perhaps_named(rng, address)
}

fn edge(rng: &mut Rng) -> Vec<u8> {
    let port = port(rng);
    if rng.one_in(2) {
        v4(rng.pick(&v4_edges()), port)
    } else {
        v6(rng.pick(&v6_edges()), port)
    }
}

/// An address of the form, damaged or not, or other bytes.
pub fn any(rng: &mut Rng) -> Vec<u8> {
    match rng.below(10) {
        0..5 => common(rng),
        5..8 => edge(rng),
        8 => {
            let mut address = common(rng);
            damage(rng, &mut address);
            address
        }
        _ => {
            let len = rng.index(30);
            rng.bytes(len)
        }
    }
}

/// Changes, adds or takes away a byte.
pub fn damage(rng: &mut Rng, bytes: &mut Vec<u8>) {
    let at = rng.index(bytes.len() + 1);
    match rng.below(4) {
        0 if at < bytes.len() => bytes[at] ^= 1 << rng.below(8),
        1 if at < bytes.len() => {
            bytes.remove(at);
        }
        2 => bytes.truncate(at),
        _ => bytes.insert(at, rng.draw() as u8),
    }
}

/// An address list with up to `most` entries.
pub fn list(rng: &mut Rng, most: u64) -> Vec<u8> {
    let entries: Vec<Vec<u8>> = (0..rng.below(most + 1)).map(|_| any(rng)).collect();
    crate::text::list(entries.iter().map(Vec::as_slice))
}
