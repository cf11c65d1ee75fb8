//! Candidates: the given filter and bounds.

use minip2p_core::Multiaddr;

use crate::agent::Shared;
use crate::config::NatConfig;
use crate::inbound::{bound_punch_candidates, select_punch_candidates};
use crate::text::{Words, entries, hex, list};

pub(super) fn answer(line: &[u8]) -> Option<String> {
    let mut words = Words::new(line);
    match words.word("do")? {
        b"eligible" => {
            let private = words.flag("private")?;
            let address = words.bytes("address")?;
            words.end(eligible(&address, private).to_string())
        }
        b"select" => {
            let private = words.flag("private")?;
            let list = words.bytes("list")?;
            words.end(kept(&list, |given| {
                select_punch_candidates(&given, private)
            }))
        }
        b"own" => {
            let list = words.bytes("list")?;
            words.end(kept(&list, own))
        }
        b"bound" => {
            let list = words.bytes("list")?;
            words.end(kept(&list, bound_punch_candidates))
        }
        _ => None,
    }
}

/// The ranges alone: the port, which the bounds judge, is made a good one.
fn eligible(bytes: &[u8], private: bool) -> &'static str {
    if Multiaddr::from_bytes(bytes).is_err() {
        return "none";
    }
    let mut bytes = bytes.to_vec();
    // Behind the family's code, the IP, and udp.
    let port = if bytes[0] == 0x04 { 7 } else { 19 };
    bytes[port..port + 2].copy_from_slice(&4001u16.to_be_bytes());
    let address = Multiaddr::from_bytes(&bytes).expect("only the port changed");
    match select_punch_candidates(&[address], private).len() {
        0 => "no",
        _ => "yes",
    }
}

fn own(given: Vec<Multiaddr>) -> Vec<Multiaddr> {
    let mut shared = Shared::new(NatConfig::default(), Default::default());
    shared.own = given;
    shared.punch_candidates()
}

fn kept(given: &[u8], choose: impl FnOnce(Vec<Multiaddr>) -> Vec<Multiaddr>) -> String {
    let Some(found) = entries(given) else {
        return "refused why=5".to_string();
    };
    let addresses = found.into_iter().map(Multiaddr::from_bytes);
    let chosen: Vec<Vec<u8>> = choose(addresses.flatten().collect())
        .iter()
        .map(Multiaddr::to_bytes)
        .collect();
    format!("kept={}", hex(&list(chosen.iter().map(Vec::as_slice))))
}
