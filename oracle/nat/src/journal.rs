//! The journal of docs/RULES.md, section 12, run through the given Rust. The
//! numbers of calls turned back are decided here, by the rule, before the Rust
//! is called.

use std::collections::BTreeSet;
use std::io::{self, Write};

use minip2p_core::{ConnectId, PeerId};
use minip2p_transport::ConnectionId;

use crate::agent::StreamInput;
use crate::circuit::{Answers, Circuit};
use crate::config::NatConfig;
use crate::ledger::{Attribution, DialPurpose, Owner, PathLedger};
use crate::text::{self, Words};
use crate::types::NatToken;

/// Rows of each of the ledger's tables.
const ROWS: usize = 64;

#[derive(Clone, Debug)]
enum Kind {
    Ready,
    Data(Vec<u8>),
    End,
    Closed,
}

/// The host's answers as the line has them; the own list may be broken.
#[derive(Clone, Debug)]
struct Told {
    live: Option<u64>,
    offer: Option<(u64, u64)>,
    pending: bool,
    own: Vec<u8>,
}

#[derive(Clone, Debug)]
enum Call {
    Start {
        source: u64,
        relay: u64,
        circuit: u64,
    },
    Up {
        peer: u64,
        conn: u64,
        circuit: bool,
        told: Told,
    },
    Input {
        stream: u64,
        kind: Kind,
        told: Told,
    },
    Tick {
        told: Told,
    },
    Wrote {
        conn: u64,
        stream: u64,
    },
    Down {
        peer: u64,
        conn: u64,
    },
    Dial {
        conn: u64,
        token: u64,
        id: u64,
    },
    Forget {
        conn: u64,
    },
    Attribute {
        peer: u64,
        conn: u64,
        circuit: bool,
    },
}

pub fn run(input: &[u8], out: &mut impl Write) -> io::Result<()> {
    replay(input, out, |journal, line, n, out| {
        match journal.line(line) {
            Err(why) => writeln!(out, "n={n} out=refused why={why}"),
            Ok(effects) if effects.is_empty() => writeln!(out, "n={n} out=none"),
            Ok(effects) => effects
                .iter()
                .try_for_each(|effect| writeln!(out, "n={n} out={effect}")),
        }
    })
}

/// Prints after each line, instead of its outputs, what the circuit answers
/// then (docs/RULES.md, section 11.9), and whether the line's call took an
/// established connection (section 11.5).
pub fn run_questions(input: &[u8], out: &mut impl Write) -> io::Result<()> {
    replay(input, out, |journal, line, n, out| {
        // Only the state that it leaves is wanted.
        let _ = journal.line(line);
        let (next, promotes, claims) = journal.circuit.questions();
        let next = next.map_or("none".to_string(), |next| next.to_string());
        let [promotes, claims, took] = [promotes, claims, journal.circuit.took].map(u8::from);
        writeln!(
            out,
            "n={n} next={next} promotes={promotes} claims={claims} took={took}"
        )
    })
}

/// Goes through the lines behind the first, which are counted from 1.
fn replay<W: Write>(
    input: &[u8],
    out: &mut W,
    mut answer: impl FnMut(&mut Journal, Option<&[u8]>, usize, &mut W) -> io::Result<()>,
) -> io::Result<()> {
    let mut lines = text::lines(input);
    let Some(mut journal) = lines.next().flatten().and_then(Journal::read) else {
        return writeln!(out, "n=0 out=refused why=11");
    };
    for (before, line) in lines.enumerate() {
        answer(&mut journal, line, before + 1, out)?;
    }
    Ok(())
}

fn settings(line: &[u8]) -> Option<NatConfig> {
    let mut words = Words::new(line);
    let config = NatConfig {
        circuit_handshake_timeout_ms: words.number("handshake")?,
        upgrade_timeout_ms: words.number("upgrade")?,
        dcutr_exchange_timeout_ms: words.number("exchange")?,
        punch_deadline_ms: words.number("punch")?,
        blast_interval_ms: words.number("interval")?,
        blast_payload_len: usize::try_from(words.number("payload")?).ok()?,
        allow_private_punch_targets: words.flag("private")?,
        dcutr: words.flag("upgrades")?,
        relay_timeout_ms: 0,
        ..NatConfig::default()
    };
    words.end(config)
}

fn call(line: &[u8]) -> Option<(u64, Call)> {
    let mut words = Words::new(line);
    let word = words.word("do")?;
    let at = words.number("at")?;
    let call = match word {
        b"start" => Call::Start {
            source: words.number("source")?,
            relay: words.number("relay")?,
            circuit: words.number("circuit")?,
        },
        b"up" => Call::Up {
            peer: words.number("peer")?,
            conn: words.number("conn")?,
            circuit: via(&mut words)?,
            told: told(&mut words, true)?,
        },
        b"input" => Call::Input {
            stream: words.number("stream")?,
            kind: kind(&mut words)?,
            told: told(&mut words, true)?,
        },
        b"tick" => Call::Tick {
            told: told(&mut words, false)?,
        },
        b"wrote" => Call::Wrote {
            conn: words.number("conn")?,
            stream: words.number("stream")?,
        },
        b"down" => Call::Down {
            peer: words.number("peer")?,
            conn: words.number("conn")?,
        },
        b"dial" => Call::Dial {
            conn: words.number("conn")?,
            token: words.number("token")?,
            id: words.number("id")?,
        },
        b"forget" => Call::Forget {
            conn: words.number("conn")?,
        },
        b"attribute" => Call::Attribute {
            peer: words.number("peer")?,
            conn: words.number("conn")?,
            circuit: via(&mut words)?,
        },
        _ => return None,
    };
    words.end((at, call))
}

fn via(words: &mut Words<'_>) -> Option<bool> {
    match words.word("via")? {
        b"circuit" => Some(true),
        b"direct" => Some(false),
        _ => None,
    }
}

fn kind(words: &mut Words<'_>) -> Option<Kind> {
    let kind = words.word("kind")?;
    let data = words.bytes("data")?;
    match kind {
        b"data" => Some(Kind::Data(data)),
        _ if !data.is_empty() => None,
        b"ready" => Some(Kind::Ready),
        b"end" => Some(Kind::End),
        b"closed" => Some(Kind::Closed),
        _ => None,
    }
}

fn told(words: &mut Words<'_>, with_pending: bool) -> Option<Told> {
    Some(Told {
        live: match words.word("live")? {
            b"none" => None,
            conn => Some(text::number(conn)?),
        },
        offer: match words.word("offer")? {
            b"none" => None,
            pair => {
                let colon = pair.iter().position(|byte| *byte == b':')?;
                Some((
                    text::number(&pair[..colon])?,
                    text::number(&pair[colon + 1..])?,
                ))
            }
        },
        pending: with_pending && words.flag("pending")?,
        own: words.bytes("own")?,
    })
}

pub(crate) struct Journal {
    config: NatConfig,
    pub(crate) circuit: Circuit,
    source: u64,
    /// Rows of the ledger's tables, and every number that a line named.
    dials: BTreeSet<u64>,
    paths: BTreeSet<u64>,
    sources: BTreeSet<u64>,
    conns: BTreeSet<u64>,
    /// The accepted calls, to try one on a copy.
    accepted: Vec<(u64, Call)>,
}

impl Journal {
    fn new(config: NatConfig) -> Self {
        Self {
            circuit: Circuit::new(config.clone()),
            config,
            source: 0,
            dials: BTreeSet::new(),
            paths: BTreeSet::new(),
            sources: BTreeSet::new(),
            conns: BTreeSet::new(),
            accepted: Vec::new(),
        }
    }

    /// A journal begun by its settings line.
    pub(crate) fn read(line: &[u8]) -> Option<Self> {
        settings(line).map(Self::new)
    }

    /// Answers a line; `None` is one over the length or without a line feed.
    pub(crate) fn line(&mut self, line: Option<&[u8]>) -> Result<Vec<String>, u8> {
        self.circuit.took = false;
        let (at, call) = line.and_then(call).ok_or(11)?;
        if let Some(why) = self.refusal(at, &call) {
            return Err(why);
        }
        self.accepted.push((at, call.clone()));
        Ok(self.accept(at, call))
    }

    /// The first number whose case holds.
    fn refusal(&mut self, at: u64, call: &Call) -> Option<u8> {
        if !matches!(call, Call::Start { .. }) && !self.circuit.started() {
            return Some(12);
        }
        match call {
            Call::Start { .. } => {
                let handshake = self.config.circuit_handshake_timeout_ms;
                at.checked_add(handshake).is_none().then_some(3)
            }
            Call::Up { told, .. } | Call::Tick { told } => self.told_refusal(told),
            Call::Input { told, .. } => self
                .told_refusal(told)
                .or_else(|| self.needs_window(at, call).then_some(4)),
            Call::Dial { conn, .. } => self.dials.full_for(*conn).then_some(4),
            Call::Attribute { conn, circuit, .. } => {
                let row = !*circuit || self.circuit.claim(*conn).is_some();
                (row && self.paths.full_for(*conn)).then_some(4)
            }
            Call::Wrote { .. } | Call::Down { .. } | Call::Forget { .. } => None,
        }
    }

    fn told_refusal(&self, told: &Told) -> Option<u8> {
        if text::entries(&told.own).is_none() {
            return Some(5);
        }
        (told.offer.is_some() && told.offer == self.circuit.pair()).then_some(2)
    }

    /// Whether an input would open a 65th window: every row is taken, none is
    /// the source's, and the input, tried on a copy, sends SYNC.
    fn needs_window(&mut self, at: u64, call: &Call) -> bool {
        if self.sources.len() <= ROWS {
            return false;
        }
        let mut taken: Vec<u64> = self.sources.iter().copied().collect();
        taken.retain(|peer| self.has_window(*peer));
        if taken.len() < ROWS || taken.contains(&self.source) {
            return false;
        }
        let mut copy = Self::new(self.config.clone());
        for (at, call) in &self.accepted {
            copy.accept(*at, call.clone());
        }
        copy.accept(at, call.clone());
        copy.circuit.synced
    }

    /// A window row shows in how a connection that is in no table would be
    /// attributed at reading 0; no row of a journal ends there.
    fn has_window(&mut self, peer: u64) -> bool {
        let unused = (0..).find(|conn| !self.conns.contains(conn));
        let probe = ConnectionId(unused.expect("few numbers are named"));
        let found = self
            .ledger()
            .attribute(probe, &PeerId(peer), false, None, 0);
        self.ledger().forget(probe);
        found.is_some_and(|found| found.owner == Some(Owner::Inbound))
    }

    fn accept(&mut self, at: u64, call: Call) -> Vec<String> {
        match call {
            Call::Start {
                source,
                relay,
                circuit,
            } => {
                self.source = source;
                self.sources.insert(source);
                self.circuit.start(at, source, relay, circuit);
                Vec::new()
            }
            Call::Up {
                peer,
                conn,
                circuit,
                told,
            } => self.circuit.up(at, peer, conn, circuit, told.answers()),
            Call::Input { stream, kind, told } => {
                let input = match &kind {
                    Kind::Ready => StreamInput::Ready,
                    Kind::Data(data) => StreamInput::Data(data),
                    Kind::End => StreamInput::RemoteWriteClosed,
                    Kind::Closed => StreamInput::Closed,
                };
                self.circuit.input(at, stream, input, told.answers())
            }
            Call::Tick { told } => {
                let out = self.circuit.tick(at, told.answers());
                self.circuit.shared.ledger.on_tick(at);
                out
            }
            Call::Wrote { conn, stream } => self.circuit.wrote(at, conn, stream),
            Call::Down { peer, conn } => self.circuit.down(at, peer, conn),
            Call::Dial { conn, token, id } => {
                self.conns.insert(conn);
                self.dials.insert(conn);
                self.ledger().dial_started(
                    ConnectionId(conn),
                    NatToken(token),
                    DialPurpose::Punch(ConnectId(id)),
                );
                Vec::new()
            }
            Call::Forget { conn } => {
                self.dials.remove(&conn);
                self.paths.remove(&conn);
                self.ledger().forget(ConnectionId(conn));
                Vec::new()
            }
            Call::Attribute {
                peer,
                conn,
                circuit,
            } => {
                self.conns.insert(conn);
                let claim = self.circuit.claim(conn);
                let found =
                    self.ledger()
                        .attribute(ConnectionId(conn), &PeerId(peer), circuit, claim, at);
                if found.is_some() {
                    self.paths.insert(conn);
                }
                vec![attributed(found)]
            }
        }
    }

    fn ledger(&mut self) -> &mut PathLedger {
        &mut self.circuit.shared.ledger
    }
}

trait Rows {
    fn full_for(&self, key: u64) -> bool;
}

impl Rows for BTreeSet<u64> {
    fn full_for(&self, key: u64) -> bool {
        self.len() >= ROWS && !self.contains(&key)
    }
}

impl Told {
    fn answers(self) -> Answers {
        let own = text::entries(&self.own).expect("number 5 came first");
        Answers {
            live: self.live,
            offer: self.offer,
            pending: self.pending,
            own: own.into_iter().map(<[u8]>::to_vec).collect(),
        }
    }
}

fn attributed(found: Option<Attribution>) -> String {
    let Some(found) = found else {
        return "attributed path=none owner=none".to_string();
    };
    let path = match found.path {
        crate::Path::Relayed { .. } => "relayed",
        crate::Path::Punched => "punched",
        crate::Path::Direct => "direct",
    };
    let owner = match found.owner {
        Some(Owner::Attempt(id)) => id.0.to_string(),
        Some(Owner::Inbound) => "inbound".to_string(),
        None => "none".to_string(),
    };
    format!("attributed path={path} owner={owner}")
}
