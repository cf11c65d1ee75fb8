//! Paths: the given `PathLedger`. Its tables are private and unbounded: the
//! rows are followed here by their keys alone, for number 4, and what stands
//! in a row is got from the Rust by calls that take it out and put it back.

use std::collections::{BTreeMap, BTreeSet};

use minip2p_core::{Bytes, ConnectId, Multiaddr, Path, PeerAddr, PeerId};
use minip2p_transport::{ConnectionId, StreamId};

use crate::ledger::{Attribution, Claim, DialPurpose, Owner, PathLedger};
use crate::swarm::{DialStart, NatSwarm, NatSwarmError};
use crate::text::{Words, hex};
use crate::types::NatToken;

const ROWS: usize = 64;

#[derive(Default)]
pub(super) struct Tables {
    ledger: PathLedger,
    dials: BTreeSet<u64>,
    windows: BTreeMap<u64, u64>,
    paths: BTreeSet<u64>,
}

impl Tables {
    pub(super) fn answer(&mut self, line: &[u8]) -> Option<String> {
        let mut words = Words::new(line);
        let word = words.word("do")?;
        match word {
            b"empty" => {
                words.end(())?;
                *self = Self::default();
                Some("ok".to_string())
            }
            b"dial" => {
                let conn = words.number("conn")?;
                let token = words.number("token")?;
                let purpose = purpose(&mut words)?;
                words.end(())?;
                Some(self.dial(conn, token, purpose))
            }
            b"finish" => {
                let conn = words.number("conn")?;
                words.end(())?;
                self.dials.remove(&conn);
                let ended = self.ledger.finish_dial(ConnectionId(conn));
                Some(ended.map_or("none".to_string(), |(token, purpose)| {
                    dial_words(token, &purpose)
                }))
            }
            b"abort" => {
                let live = live(&words.bytes("live")?);
                let id = words.number("id")?;
                let target = words.number("target")?;
                words.end(())?;
                Some(self.abort(id, target, live))
            }
            b"expect" => {
                let peer = words.number("peer")?;
                let until = words.number("until")?;
                words.end(())?;
                Some(self.expect(peer, until))
            }
            b"close" => {
                let peer = words.number("peer")?;
                words.end(())?;
                self.windows.remove(&peer);
                self.ledger.end_punches(&PeerId(peer));
                Some("ok".to_string())
            }
            b"attribute" => {
                let at = words.number("at")?;
                let peer = words.number("peer")?;
                let conn = words.number("conn")?;
                let circuit = match words.word("via")? {
                    b"circuit" => true,
                    b"direct" => false,
                    _ => return None,
                };
                let claim = claim(&mut words)?;
                words.end(())?;
                Some(self.attribute(at, peer, conn, circuit, claim))
            }
            b"replaced" => {
                let old = Attribution {
                    path: path(&mut words)?,
                    owner: owner(&mut words)?,
                };
                let new = words.number("new")?;
                words.end(())?;
                let upgrade = self.ledger.replaced(&old, ConnectionId(new));
                Some(upgrade.map_or("none".to_string(), |upgrade| {
                    let owner = owner_words(Some(upgrade.owner));
                    let (from, relay) = path_word(&upgrade.from);
                    let (to, by) = path_word(&upgrade.to);
                    format!("{owner} from={from} relay={relay} to={to} by={by}")
                }))
            }
            b"forget" => {
                let conn = words.number("conn")?;
                words.end(())?;
                self.dials.remove(&conn);
                self.paths.remove(&conn);
                let forgotten = self.ledger.forget(ConnectionId(conn));
                Some(forgotten.map_or("none".to_string(), |row| name_words(&row)))
            }
            b"punched" => {
                let conn = words.number("conn")?;
                words.end(yes_no(self.ledger.is_punched(ConnectionId(conn))))
            }
            b"expire" => {
                let at = words.number("at")?;
                words.end(())?;
                self.windows.retain(|_, until| *until > at);
                self.ledger.on_tick(at);
                Some("ok".to_string())
            }
            b"next" => {
                let next = self.ledger.next_deadline();
                words.end(next.map_or("none".to_string(), |at| format!("at={at}")))
            }
            b"quiet" => words.end(yes_no(self.ledger.is_quiet())),
            b"row" => {
                let table = words.word("table")?;
                let place = words.number("place")?;
                let row = match table {
                    b"dials" => Self::dial_at,
                    b"windows" => Self::window_at,
                    b"paths" => Self::path_at,
                    _ => return None,
                };
                words.end(())?;
                let row = usize::try_from(place).ok().and_then(|at| row(self, at));
                Some(row.unwrap_or("none".to_string()))
            }
            _ => None,
        }
    }

    fn dial(&mut self, conn: u64, token: u64, purpose: DialPurpose) -> String {
        if self.dials.len() >= ROWS && !self.dials.contains(&conn) {
            return full();
        }
        self.dials.insert(conn);
        let conn = ConnectionId(conn);
        self.ledger.dial_started(conn, NatToken(token), purpose);
        "ok".to_string()
    }

    fn abort(&mut self, id: u64, target: u64, live: Vec<(u64, u64)>) -> String {
        let live = Live(live);
        let (retired, close) =
            self.ledger
                .abort_attempt_dials(ConnectId(id), &PeerId(target), &live);
        let known: Vec<u64> = self.dials.iter().copied().collect();
        for conn in known {
            if self.dial_row(conn).is_none() {
                self.dials.remove(&conn);
            }
        }
        let retired: Vec<u8> = (retired.iter())
            .flat_map(|token| token.0.to_be_bytes())
            .collect();
        let close: Vec<u8> = (close.iter())
            .flat_map(|conn| conn.0.to_be_bytes())
            .collect();
        format!("retired={} close={}", hex(&retired), hex(&close))
    }

    fn expect(&mut self, peer: u64, until: u64) -> String {
        if self.windows.len() >= ROWS && !self.windows.contains_key(&peer) {
            return full();
        }
        let end = self.windows.entry(peer).or_insert(until);
        *end = until.max(*end);
        self.ledger.expect_punches(PeerId(peer), until);
        "ok".to_string()
    }

    fn attribute(
        &mut self,
        at: u64,
        peer: u64,
        conn: u64,
        circuit: bool,
        claim: Option<Claim>,
    ) -> String {
        let row = !circuit || matches!(claim, Some(Claim::Circuit { .. }));
        if row && self.paths.len() >= ROWS && !self.paths.contains(&conn) {
            return full();
        }
        let found = self
            .ledger
            .attribute(ConnectionId(conn), &PeerId(peer), circuit, claim, at);
        match found {
            None => "path=none".to_string(),
            Some(row) => {
                self.paths.insert(conn);
                name_words(&row)
            }
        }
    }

    /// The dial at a place of the order.
    fn dial_at(&mut self, place: usize) -> Option<String> {
        let conn = *self.dials.iter().nth(place)?;
        let (token, purpose) = self.dial_row(conn).expect("followed");
        Some(format!("conn={conn} {}", dial_words(token, &purpose)))
    }

    fn window_at(&mut self, place: usize) -> Option<String> {
        let (&peer, &until) = self.windows.iter().nth(place)?;
        assert_eq!(self.window_end(peer), until, "the end of {peer}'s window");
        Some(format!("peer={peer} until={until}"))
    }

    fn path_at(&mut self, place: usize) -> Option<String> {
        let conn = *self.paths.iter().nth(place)?;
        let row = self.path_row(conn);
        Some(format!("conn={conn} {}", name_words(&row)))
    }

    /// Takes a dial out and puts it back.
    fn dial_row(&mut self, conn: u64) -> Option<(NatToken, DialPurpose)> {
        let conn = ConnectionId(conn);
        let (token, purpose) = self.ledger.finish_dial(conn)?;
        self.ledger.dial_started(conn, token, purpose.clone());
        Some((token, purpose))
    }

    /// The reading from which on a connection that stands in no table is no
    /// punch of `peer`.
    fn window_end(&mut self, peer: u64) -> u64 {
        let unused = (0..).find(|conn| !self.dials.contains(conn) && !self.paths.contains(conn));
        let probe = ConnectionId(unused.expect("tables are small"));
        let (mut open, mut ended) = (0, u64::MAX);
        while open < ended {
            let at = open + (ended - open) / 2;
            let found = self.ledger.attribute(probe, &PeerId(peer), false, None, at);
            if found.is_some_and(|row| row.path == Path::Punched) {
                open = at + 1;
            } else {
                ended = at;
            }
        }
        self.ledger.forget(probe);
        ended
    }

    /// Takes a path row out and puts it back, its dial too.
    fn path_row(&mut self, conn: u64) -> Attribution {
        let probe = (0..).find(|peer| !self.windows.contains_key(peer));
        let probe = PeerId(probe.expect("tables are small"));
        let conn = ConnectionId(conn);
        let dial = self.ledger.finish_dial(conn);
        let row = self.ledger.forget(conn).expect("followed");
        let (circuit, claim, at) = match (&row.path, row.owner) {
            (Path::Relayed { relay }, Some(owner)) => {
                let relay = relay.clone();
                (true, Some(Claim::Circuit { relay, owner }), 0)
            }
            (Path::Punched, Some(Owner::Attempt(id))) => {
                let purpose = DialPurpose::Punch(id);
                self.ledger.dial_started(conn, NatToken(0), purpose);
                (false, None, 0)
            }
            (Path::Punched, Some(Owner::Inbound)) => {
                self.ledger.expect_punches(probe.clone(), u64::MAX);
                (false, None, 0)
            }
            (Path::Direct, Some(Owner::Attempt(id))) => (false, Some(Claim::Direct(id)), 0),
            (Path::Direct, None) => (false, None, u64::MAX),
            (path, owner) => unreachable!("no row holds {path:?} of {owner:?}"),
        };
        let again = self.ledger.attribute(conn, &probe, circuit, claim, at);
        assert_eq!(again.as_ref(), Some(&row), "the row is put back");
        self.ledger.end_punches(&probe);
        self.ledger.finish_dial(conn);
        if let Some((token, purpose)) = dial {
            self.ledger.dial_started(conn, token, purpose);
        }
        row
    }
}

fn full() -> String {
    "refused why=4".to_string()
}

fn yes_no(yes: bool) -> String {
    if yes { "yes" } else { "no" }.to_string()
}

fn purpose(words: &mut Words<'_>) -> Option<DialPurpose> {
    let word = words.word("purpose")?;
    let of = words.number("of")?;
    let relay = words.number("relay")?;
    Some(match word {
        b"relay" => DialPurpose::Relay(ConnectId(of), PeerAddr(PeerId(relay))),
        b"punch" => DialPurpose::Punch(ConnectId(of)),
        b"probe" => DialPurpose::Probe(PeerId(of)),
        b"reserve" => DialPurpose::Reserve(PeerId(of)),
        _ => return None,
    })
}

fn dial_words(token: NatToken, purpose: &DialPurpose) -> String {
    let (word, of, relay) = match purpose {
        DialPurpose::Relay(id, relay) => ("relay", id.0, relay.peer_id().0),
        DialPurpose::Punch(id) => ("punch", id.0, 0),
        DialPurpose::Probe(peer) => ("probe", peer.0, 0),
        DialPurpose::Reserve(peer) => ("reserve", peer.0, 0),
    };
    format!("token={} purpose={word} of={of} relay={relay}", token.0)
}

fn claim(words: &mut Words<'_>) -> Option<Option<Claim>> {
    let word = words.word("claim")?;
    let relay = PeerId(words.number("relay")?);
    let id = ConnectId(words.number("id")?);
    let owner = match word {
        b"none" => return Some(None),
        b"direct" => return Some(Some(Claim::Direct(id))),
        b"inbound" => Owner::Inbound,
        b"attempt" => Owner::Attempt(id),
        _ => return None,
    };
    Some(Some(Claim::Circuit { relay, owner }))
}

fn owner(words: &mut Words<'_>) -> Option<Option<Owner>> {
    let word = words.word("owner")?;
    let id = ConnectId(words.number("id")?);
    Some(match word {
        b"none" => None,
        b"inbound" => Some(Owner::Inbound),
        b"attempt" => Some(Owner::Attempt(id)),
        _ => return None,
    })
}

fn owner_words(owner: Option<Owner>) -> String {
    let (word, id) = match owner {
        None => ("none", 0),
        Some(Owner::Inbound) => ("inbound", 0),
        Some(Owner::Attempt(id)) => ("attempt", id.0),
    };
    format!("owner={word} id={id}")
}

fn path(words: &mut Words<'_>) -> Option<Path> {
    let word = words.word("path")?;
    let relay = PeerId(words.number("relay")?);
    Some(match word {
        b"relayed" => Path::Relayed { relay },
        b"punched" => Path::Punched,
        b"direct" => Path::Direct,
        _ => return None,
    })
}

fn path_word(path: &Path) -> (&'static str, u64) {
    match path {
        Path::Relayed { relay } => ("relayed", relay.0),
        Path::Punched => ("punched", 0),
        Path::Direct => ("direct", 0),
    }
}

fn name_words(row: &Attribution) -> String {
    let (path, relay) = path_word(&row.path);
    format!("path={path} relay={relay} {}", owner_words(row.owner))
}

/// Records of two numbers of eight bytes; what is behind the last whole one
/// plays no part.
fn live(bytes: &[u8]) -> Vec<(u64, u64)> {
    let number = |half: &[u8]| u64::from_be_bytes(half.try_into().expect("eight bytes"));
    bytes
        .chunks_exact(16)
        .map(|record| (number(&record[..8]), number(&record[8..])))
        .collect()
}

/// The live connections; of a peer's records the first is taken.
struct Live(Vec<(u64, u64)>);

impl NatSwarm for Live {
    fn connection(&self, peer: &PeerId) -> Option<ConnectionId> {
        let found = self.0.iter().find(|(record, _)| *record == peer.0);
        found.map(|(_, conn)| ConnectionId(*conn))
    }

    fn readiness(&self, _peer: &PeerId) -> Option<(ConnectionId, &[String])> {
        None
    }

    fn connection_remote_addr(&self, _conn: ConnectionId) -> Option<&Multiaddr> {
        None
    }

    fn dial(&mut self, _addr: &PeerAddr, _token: NatToken) -> Result<DialStart, NatSwarmError> {
        unreachable!("the ledger asks for live connections alone")
    }

    fn open_stream(
        &mut self,
        _peer: &PeerId,
        _protocol: &str,
        _now_ms: u64,
    ) -> Result<(ConnectionId, StreamId), NatSwarmError> {
        unreachable!("the ledger asks for live connections alone")
    }

    fn send_stream(
        &mut self,
        _peer: &PeerId,
        _conn: ConnectionId,
        _stream: StreamId,
        _data: Bytes,
        _now_ms: u64,
    ) -> Result<(), NatSwarmError> {
        unreachable!("the ledger asks for live connections alone")
    }

    fn close_stream_write(
        &mut self,
        _peer: &PeerId,
        _conn: ConnectionId,
        _stream: StreamId,
        _now_ms: u64,
    ) -> Result<(), NatSwarmError> {
        unreachable!("the ledger asks for live connections alone")
    }

    fn reset_stream(
        &mut self,
        _peer: &PeerId,
        _conn: ConnectionId,
        _stream: StreamId,
        _now_ms: u64,
    ) -> Result<(), NatSwarmError> {
        unreachable!("the ledger asks for live connections alone")
    }

    fn ping(&mut self, _peer: &PeerId, _now_ms: u64) -> Result<(), NatSwarmError> {
        unreachable!("the ledger asks for live connections alone")
    }
}
