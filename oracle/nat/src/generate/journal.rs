//! Journals. Each is made line by line beside a run of the Rust, whose state
//! tells which line leads deeper: rounds are brought to their end, readings
//! fall around the next limit, replies are cut and damaged.

use super::rng::Rng;
use super::{addresses, message};
use crate::journal::Journal;
use crate::text::hex;

/// The journal of a seed.
pub fn journal(seed: u64) -> Vec<u8> {
    let mut rng = Rng::new(seed);
    match rng.below(200) {
        0 => Vec::new(),
        1..4 => bad_settings(&mut rng),
        4..14 => Maker::new(rng).full_windows(),
        14..20 => Maker::new(rng).full_dials(),
        20..30 => Maker::new(rng).full_paths(),
        30..45 => Maker::new(rng).ledger_windows(),
        45..120 => Maker::new(rng).rounds(),
        _ => Maker::new(rng).ordinary(),
    }
}

struct Settings {
    /// The size of the times; no setting itself.
    scale: u64,
    handshake: u64,
    upgrade: u64,
    exchange: u64,
    punch: u64,
    interval: u64,
    payload: u64,
    private: u64,
    upgrades: u64,
}

fn settings(rng: &mut Rng) -> Settings {
    let scale = rng.pick(&[4, 50, 50, 1_000, 1_000, 10_000]);
    let time = |rng: &mut Rng, most: u64| match rng.below(30) {
        0 => 0,
        1 => 1,
        2 => rng.number(),
        _ => rng.below(most + 1),
    };
    let interval = rng.pick(&[3, scale / 40 + 2, scale / 8 + 2]);
    let mut made = Settings {
        scale,
        handshake: time(rng, scale),
        upgrade: time(rng, 8 * scale),
        exchange: time(rng, scale),
        punch: time(rng, scale),
        interval: time(rng, interval),
        payload: time(rng, 64),
        private: u64::from(rng.one_in(3)),
        upgrades: u64::from(!rng.one_in(30)),
    };
    if rng.one_in(10) {
        // Windows with more instants than a loop should count.
        made.upgrade = 1 << rng.pick(&[30, 50, 63]);
        made.punch = 1 << rng.pick(&[20, 40, 62]);
    }
    made
}

impl Settings {
    fn line(&self) -> String {
        format!(
            "handshake={} upgrade={} exchange={} punch={} interval={} payload={} private={} upgrades={}",
            self.handshake,
            self.upgrade,
            self.exchange,
            self.punch,
            self.interval,
            self.payload,
            self.private,
            self.upgrades
        )
    }
}

fn bad_settings(rng: &mut Rng) -> Vec<u8> {
    let mut line = settings(rng).line().into_bytes();
    damage_line(rng, &mut line);
    if !rng.one_in(6) {
        line.push(b'\n');
    }
    line.extend_from_slice(b"do=start at=0 source=5 relay=9 circuit=7\n");
    line
}

struct Maker {
    rng: Rng,
    settings: Settings,
    run: Journal,
    out: Vec<u8>,
    clock: u64,
    source: u64,
    relay: u64,
    circuit: u64,
    stream: u64,
    /// What is left to send of the reply that the peer writes.
    reply: Vec<u8>,
    /// The host answers so that a round is had.
    smooth: bool,
}

impl Maker {
    fn new(mut rng: Rng) -> Self {
        let settings = settings(&mut rng);
        let line = settings.line();
        let run = Journal::read(line.as_bytes()).expect("the settings are good");
        let clock = match rng.below(8) {
            0 => u64::MAX - rng.below(30_000),
            1 => rng.number(),
            _ => rng.below(1_000),
        };
        Self {
            rng,
            settings,
            run,
            out: format!("{line}\n").into_bytes(),
            clock,
            source: 5,
            relay: 9,
            circuit: 7,
            stream: 4,
            reply: Vec::new(),
            smooth: false,
        }
    }

    fn ordinary(mut self) -> Vec<u8> {
        if self.rng.one_in(6) {
            for _ in 0..1 + self.rng.below(3) {
                if self.rng.one_in(3) {
                    self.bad_line();
                } else {
                    self.any_call();
                }
            }
        }
        let circuits = self.rng.pick(&[1, 1, 1, 2, 3]);
        for n in 0..circuits {
            if n > 0 && self.rng.one_in(3) {
                self.clock = self.clock.saturating_sub(self.rng.below(2_000));
            }
            self.start();
            let steps = self.rng.pick(&[4, 12, 25, 40]);
            for _ in 0..steps {
                self.step();
                if self.rng.one_in(10) {
                    self.probe();
                }
            }
        }
        self.finish()
    }

    /// Circuits whose rounds come to their windows, most of them all three.
    fn rounds(mut self) -> Vec<u8> {
        if !self.rng.one_in(4) {
            let scale = self.settings.scale;
            self.settings.upgrade = self.settings.upgrade.max(5 * scale);
            self.settings.exchange = self.settings.exchange.max(scale / 2);
            self.settings.punch = self.settings.punch.max(scale / 4);
            self.begin_anew();
        }
        for _ in 0..self.rng.pick(&[1, 1, 2]) {
            self.start();
            for _ in 0..60 {
                self.smooth = !self.rng.one_in(25);
                if !self.smooth {
                    self.step();
                } else if self.rng.one_in(12) {
                    self.probe();
                } else if self.run.circuit.over() {
                    break;
                } else {
                    self.further();
                }
            }
        }
        self.finish()
    }

    /// The line that brings a round on.
    fn further(&mut self) {
        self.pass_time();
        match self.run.circuit.pair() {
            Some((_, stream)) if !self.run.circuit.asked() => self.input(stream, "ready", &[]),
            Some((conn, stream)) => {
                if self.rng.one_in(4) {
                    self.wrote(conn, stream);
                } else {
                    self.piece(stream);
                }
            }
            None if self.run.circuit.punching() => self.tick(),
            None => self.up(self.source, self.circuit, "circuit"),
        }
    }

    /// Circuits from more sources than the ledger has windows.
    fn full_windows(mut self) -> Vec<u8> {
        self.settle(1_000_000);
        self.smooth = true;
        for source in 0..64 {
            self.begin(100 + source);
            self.answered();
        }
        for _ in 0..6 {
            let source = self.rng.pick(&[100, 120, 163, 164, 165, 99]);
            self.begin(source);
            self.smooth = !self.rng.one_in(4);
            self.answered();
            for _ in 0..self.rng.below(4) {
                self.step();
            }
            if self.rng.one_in(3) {
                self.clock = self.clock.saturating_add(self.rng.pick(&[10, 999_000]));
                self.tick();
            }
        }
        self.finish()
    }

    /// Few sources answered again and again, at clocks that go back and
    /// forth, with the ledger asked between.
    fn ledger_windows(mut self) -> Vec<u8> {
        let upgrade = 1 + self.rng.below(400);
        self.settle(upgrade);
        for _ in 0..2 + self.rng.below(6) {
            let source = self.rng.pick(&[5, 5, 5, 6]);
            self.begin(source);
            self.answered();
            for _ in 0..1 + self.rng.below(6) {
                match self.rng.below(8) {
                    0 => {
                        let conn = 1_000 + self.rng.below(5);
                        self.say(format!(
                            "do=dial at={} conn={conn} token=1 id=3",
                            self.clock
                        ));
                    }
                    1 => {
                        let deadline = self.run.circuit.deadline();
                        self.clock = self.rng.near(deadline);
                        let at = self.clock;
                        self.say(format!("do=tick at={at} live=7 offer=none own=00"));
                    }
                    2 => self.step(),
                    _ => self.probe(),
                }
            }
            self.clock = match self.rng.below(3) {
                0 => self.clock.saturating_sub(self.rng.below(400)),
                _ => self.clock.saturating_add(self.rng.below(400)),
            };
        }
        self.finish()
    }

    /// More dials than the ledger has rows, and rows freed and used again.
    fn full_dials(mut self) -> Vec<u8> {
        self.settle(1_000_000);
        self.begin(5);
        for n in 0..64 {
            let conn = n * 37 % 64;
            self.say(format!(
                "do=dial at={} conn={conn} token={n} id=3",
                self.clock
            ));
        }
        for n in 0..20 {
            let conn = self.rng.below(68);
            let at = self.clock;
            let line = match self.rng.below(4) {
                0 => format!("do=forget at={at} conn={conn}"),
                1 => format!("do=attribute at={at} peer=5 conn={conn} via=direct"),
                _ => format!("do=dial at={at} conn={conn} token={n} id=4"),
            };
            self.say(line);
        }
        self.finish()
    }

    /// More paths than the ledger has rows, and rows freed and used again.
    fn full_paths(mut self) -> Vec<u8> {
        self.settle(1_000_000);
        self.begin(5);
        for n in 0..64 {
            let conn = 10 + n * 37 % 64;
            self.say(format!(
                "do=attribute at={} peer=5 conn={conn} via=direct",
                self.clock
            ));
        }
        for _ in 0..20 {
            let conn = self.rng.pick(&[7, 7, 10, 20, 40, 73, 74, 75, 76]);
            let at = self.clock;
            let line = match self.rng.below(5) {
                0 => format!("do=forget at={at} conn={conn}"),
                1 | 2 => format!("do=attribute at={at} peer=5 conn={conn} via=circuit"),
                3 if self.rng.one_in(5) => format!("do=down at={at} peer=5 conn=7"),
                _ => format!("do=attribute at={at} peer=5 conn={conn} via=direct"),
            };
            self.say(line);
        }
        self.finish()
    }

    /// Begins the journal anew with settings under which circuits start and
    /// rounds are answered.
    fn settle(&mut self, upgrade: u64) {
        self.settings.handshake %= 10_000;
        self.settings.upgrade = upgrade;
        self.settings.exchange = self.settings.exchange.clamp(100, 10_000);
        self.settings.punch %= 10_000;
        self.settings.upgrades = 1;
        self.clock %= 1_000;
        self.begin_anew();
    }

    fn begin_anew(&mut self) {
        let line = self.settings.line();
        self.run = Journal::read(line.as_bytes()).expect("the settings are good");
        self.out = format!("{line}\n").into_bytes();
    }

    fn begin(&mut self, source: u64) {
        self.source = source;
        self.say(format!(
            "do=start at={} source={source} relay={} circuit={}",
            self.clock, self.relay, self.circuit
        ));
    }

    /// A round as far as a good reply.
    fn answered(&mut self) {
        self.up(self.source, self.circuit, "circuit");
        if let Some((_, stream)) = self.run.circuit.pair() {
            self.input(stream, "ready", &[]);
            let reply = self.new_reply();
            self.input(stream, "data", &reply);
        }
    }

    fn start(&mut self) {
        if self.rng.one_in(4) {
            self.source = 4 + self.rng.below(3);
            self.relay = self.rng.number();
            self.circuit = self.rng.pick(&[7, 7, 1, 0, u64::MAX]);
        }
        if self.rng.one_in(15) {
            self.clock = u64::MAX - self.rng.below(3_000);
        }
        let handshake = self.settings.handshake;
        if self.clock.checked_add(handshake).is_none() && !self.rng.one_in(4) {
            // Back to where a circuit can start.
            let room = self.rng.below(20 * self.settings.scale);
            let near = (u64::MAX - handshake).saturating_sub(room);
            self.clock = self.rng.pick(&[near, room]);
        }
        self.begin(self.source);
        self.reply.clear();
    }

    /// A line that suits the state, or now and then any line.
    fn step(&mut self) {
        match self.rng.below(30) {
            0 => return self.bad_line(),
            1 | 2 => return self.any_call(),
            3 => return self.ledger_call(),
            _ => {}
        }
        self.pass_time();
        match self.run.circuit.pair() {
            Some((conn, stream)) if self.run.circuit.asked() => match self.rng.below(12) {
                0..7 => self.piece(stream),
                7 | 8 => {
                    let other = conn.wrapping_add(1);
                    let conn = self.rng.pick(&[conn, conn, other]);
                    self.wrote(conn, stream);
                }
                9 => self.closing(stream),
                10 => self.tick(),
                _ => self.input(stream, "ready", &[]),
            },
            Some((conn, stream)) => match self.rng.below(11) {
                0..6 => self.input(stream, "ready", &[]),
                6 => self.piece(stream),
                7 => self.closing(stream),
                8 => self.tick(),
                9 => self.wrote(conn, stream),
                _ => self.input(stream, "data", &[]),
            },
            None if self.run.circuit.over() => match self.rng.below(4) {
                0 => self.start(),
                1 => self.tick(),
                _ => self.any_call(),
            },
            None if self.run.circuit.punching() => match self.rng.below(20) {
                0 => self.up(self.source, self.circuit, "circuit"),
                1 => self.any_call(),
                _ => self.tick(),
            },
            None => match self.rng.below(12) {
                0..9 => self.up(self.source, self.circuit, "circuit"),
                9 => self.any_call(),
                _ => self.tick(),
            },
        }
    }

    /// Moves the clock: in a punch window over some of it, else most often a
    /// little, so that rounds reach their window.
    fn pass_time(&mut self) {
        let next = self
            .run
            .circuit
            .started()
            .then(|| self.run.circuit.next_deadline());
        let next = next.flatten().unwrap_or(self.clock);
        let deadline = self.run.circuit.deadline();
        let punch = self.settings.punch;
        if self.run.circuit.punching() && !self.rng.one_in(4) {
            self.clock = match self.rng.below(60) {
                0..20 => {
                    let few = self.settings.interval.saturating_mul(5).saturating_add(2);
                    self.clock.saturating_add(self.rng.below(few.min(punch)))
                }
                20..36 => self.clock.saturating_add(self.rng.below(punch)),
                36..51 => self.rng.near(next),
                51..58 => {
                    let end = self.clock.saturating_add(punch);
                    self.rng.near(end)
                }
                _ => self.rng.near(deadline),
            };
            return;
        }
        self.clock = match self.rng.below(43) {
            0..14 => self.clock,
            14..30 => {
                let little = self.rng.pick(&[2, 2 + self.settings.scale / 16]);
                self.clock.saturating_add(self.rng.below(little))
            }
            30 => self
                .clock
                .saturating_add(self.rng.below(self.settings.scale)),
            31 => self.rng.near(deadline),
            32 => {
                let window = next.saturating_add(punch);
                self.rng.near(window)
            }
            33 | 34 => self.clock.saturating_sub(self.rng.below(30)),
            35 if self.rng.one_in(4) => self.rng.number(),
            35..38 => self.clock.saturating_add(self.settings.interval),
            38 | 39 => self.clock.saturating_add(punch.min(self.settings.scale)),
            _ => self.rng.near(next),
        };
    }

    /// A reply; a good CONNECT where rounds are to be had.
    fn new_reply(&mut self) -> Vec<u8> {
        if !self.smooth {
            return reply(&mut self.rng);
        }
        let mut body = connect(&mut self.rng);
        if self.rng.one_in(6) {
            // The last type counts.
            body.splice(0..0, [0x08, 0xac, 0x02]);
        }
        minip2p_core::encode_frame(&body)
    }

    /// The next bytes of the peer's reply.
    fn piece(&mut self, stream: u64) {
        if self.reply.is_empty() {
            self.reply = self.new_reply();
        }
        let most = self.reply.len();
        let cut = match self.rng.below(4) {
            0 => 1 + self.rng.index(most),
            1 => most.min(1 + self.rng.index(3)),
            _ => most,
        };
        let piece: Vec<u8> = self.reply.drain(..cut.min(most)).collect();
        self.input(stream, "data", &piece);
        if self
            .run
            .circuit
            .pair()
            .is_none_or(|(_, running)| running != stream)
        {
            self.reply.clear();
        }
    }

    fn closing(&mut self, stream: u64) {
        let kind = self.rng.pick(&["end", "closed"]);
        self.input(stream, kind, &[]);
        self.reply.clear();
    }

    fn up(&mut self, peer: u64, conn: u64, via: &str) {
        let (at, answers) = (self.clock, self.answers(true));
        self.say(format!(
            "do=up at={at} peer={peer} conn={conn} via={via} {answers}"
        ));
    }

    fn input(&mut self, stream: u64, kind: &str, data: &[u8]) {
        let (at, answers) = (self.clock, self.answers(true));
        let data = hex(data);
        self.say(format!(
            "do=input at={at} stream={stream} kind={kind} data={data} {answers}"
        ));
    }

    fn wrote(&mut self, conn: u64, stream: u64) {
        let at = self.clock;
        self.say(format!("do=wrote at={at} conn={conn} stream={stream}"));
    }

    fn tick(&mut self) {
        let (at, answers) = (self.clock, self.answers(false));
        self.say(format!("do=tick at={at} {answers}"));
    }

    fn answers(&mut self, with_pending: bool) -> String {
        if self.smooth {
            self.stream += 4;
            let pending = match with_pending {
                true => format!("pending={} ", u8::from(self.rng.one_in(3))),
                false => String::new(),
            };
            let own = match self.rng.one_in(3) {
                true => addresses::list(&mut self.rng, 10),
                false => Vec::new(),
            };
            let (live, stream, own) = (self.circuit, self.stream, hex(&own));
            return format!("live={live} offer={live}:{stream} {pending}own={own}");
        }
        let rng = &mut self.rng;
        let live = match rng.below(30) {
            0 => "none".to_string(),
            1 => rng.number().to_string(),
            _ => self.circuit.to_string(),
        };
        self.stream = self.stream.wrapping_add(4);
        let fresh = self.stream;
        let offer = match (rng.below(40), self.run.circuit.pair()) {
            (0, _) => "none".to_string(),
            (1, _) => format!("{}:{}", rng.number(), rng.number()),
            (2, Some((conn, stream))) => format!("{conn}:{stream}"),
            (3, Some((conn, stream))) => format!("{}:{stream}", conn.wrapping_add(1)),
            (4, _) => format!("{}:8", self.circuit),
            _ => format!("{}:{fresh}", self.circuit),
        };
        let pending = match with_pending {
            true => format!("pending={} ", u8::from(rng.one_in(3))),
            false => String::new(),
        };
        let own = match rng.below(12) {
            0..7 => Vec::new(),
            7..11 => addresses::list(rng, 10),
            _ => {
                let mut own = addresses::list(rng, 3);
                addresses::damage(rng, &mut own);
                own
            }
        };
        format!("live={live} offer={offer} {pending}own={}", hex(&own))
    }

    /// A peer, connection or stream that the journal has, or another.
    fn named(&mut self) -> u64 {
        let pair = self.run.circuit.pair().unwrap_or((7, 4));
        let known = [
            self.source,
            self.circuit,
            self.relay,
            pair.0,
            pair.1,
            5,
            7,
            8,
        ];
        match self.rng.below(6) {
            0 => self.rng.number(),
            _ => self.rng.pick(&known),
        }
    }

    fn any_call(&mut self) {
        self.pass_time();
        let at = self.clock;
        let via = self.rng.pick(&["circuit", "direct"]);
        match self.rng.below(9) {
            0 => {
                let (peer, conn) = (self.named(), self.named());
                self.up(peer, conn, via);
            }
            1 => {
                let conn = self.named();
                self.up(self.source, conn, "direct");
            }
            2 => {
                let stream = self.named();
                let kind = self.rng.pick(&["ready", "data", "end", "closed"]);
                let data = if kind == "data" {
                    self.rng.bytes(3)
                } else {
                    Vec::new()
                };
                self.input(stream, kind, &data);
            }
            3 => self.tick(),
            4 => {
                let (conn, stream) = (self.named(), self.named());
                self.wrote(conn, stream);
            }
            5 if self.rng.one_in(2) => {
                let (peer, conn) = (self.named(), self.named());
                self.say(format!("do=down at={at} peer={peer} conn={conn}"));
            }
            6 if self.rng.one_in(2) => self.start(),
            _ => self.ledger_call(),
        }
    }

    fn ledger_call(&mut self) {
        let (peer, conn) = (self.named(), self.named());
        let at = self.rng.near(self.clock);
        let via = self.rng.pick(&["circuit", "direct"]);
        let line = match self.rng.below(5) {
            0 => format!(
                "do=dial at={at} conn={conn} token={peer} id={}",
                self.rng.number()
            ),
            1 => format!("do=forget at={at} conn={conn}"),
            2 => format!(
                "do=attribute at={at} peer={} conn={conn} via={via}",
                self.source
            ),
            _ => format!("do=attribute at={at} peer={peer} conn={conn} via={via}"),
        };
        self.say(line);
    }

    /// Asks the ledger about a source's window: whether it is there, and where
    /// it ends.
    fn probe(&mut self) {
        let peer = self.rng.pick(&[self.source, self.source, 4, 5, 6]);
        let deadline = self.run.circuit.deadline();
        let around = self.rng.near(deadline);
        let at = self
            .rng
            .pick(&[0, self.clock, deadline, deadline.saturating_sub(1), around]);
        let conn = 1_000 + self.rng.below(8);
        self.say(format!(
            "do=attribute at={at} peer={peer} conn={conn} via=direct"
        ));
    }

    /// A good line, most often damaged, or one at or over the longest.
    fn bad_line(&mut self) {
        let (at, answers) = (self.clock, self.answers(true));
        let (peer, conn) = (self.named(), self.named());
        let mut line = match self.rng.below(8) {
            0 => format!("do=start at={at} source={peer} relay=9 circuit={conn}"),
            1 => format!("do=up at={at} peer={peer} conn={conn} via=circuit {answers}"),
            2 => {
                // Good with data alone.
                let kind = self.rng.pick(&["data", "ready", "end", "closed"]);
                format!("do=input at={at} stream={conn} kind={kind} data=0864 {answers}")
            }
            3 => format!("do=tick at={at} live=7 offer=7:8 own=-"),
            4 => format!("do=wrote at={at} conn={conn} stream={peer}"),
            5 => format!("do=down at={at} peer={peer} conn={conn}"),
            6 => format!("do=dial at={at} conn={conn} token={peer} id=3"),
            _ => format!("do=attribute at={at} peer={peer} conn={conn} via=direct"),
        }
        .into_bytes();
        if self.rng.one_in(12) {
            let head = format!("do=tick at={at} live=none offer=none own=");
            let room = 32_767 - head.len();
            let digits = "0".repeat(room - room % 2);
            line = format!("{head}{digits}").into_bytes();
            let longer = self.rng.pick(&[0, 0, 1, 2, 3, 40_000]);
            line.extend(vec![b'0'; longer]);
        } else if self.rng.one_in(30) {
            line.clear();
        } else if self.rng.one_in(8) {
            // A good line but for capitals in its bytes.
            let bytes = hex(&addresses::list(&mut self.rng, 2)).to_ascii_uppercase();
            line = format!("do=tick at={at} live=7 offer=7:8 own={bytes}").into_bytes();
        } else if !self.rng.one_in(8) {
            damage_line(&mut self.rng, &mut line);
        }
        self.say(line);
    }

    /// Writes a line and runs it.
    fn say(&mut self, line: impl Into<Vec<u8>>) {
        let mut line = line.into();
        line.retain(|byte| *byte != b'\n');
        let fits = (line.len() < 32_768).then_some(&line[..]);
        // The answer only moves the state.
        let _ = self.run.line(fits);
        self.out.extend_from_slice(&line);
        self.out.push(b'\n');
    }

    fn finish(mut self) -> Vec<u8> {
        if self.rng.one_in(25) {
            self.out.pop();
        }
        self.out
    }
}

/// CONNECT with up to eleven addresses.
fn connect(rng: &mut Rng) -> Vec<u8> {
    let mut body = vec![0x08, 0x64];
    for _ in 0..rng.below(12) {
        minip2p_core::encode_bytes_field(&mut body, 2, &addresses::any(rng));
    }
    body
}

/// A framed reply: CONNECT with addresses most often, else any message,
/// damaged now and then, with bytes behind it now and then.
fn reply(rng: &mut Rng) -> Vec<u8> {
    let mut body = Vec::new();
    match rng.below(10) {
        0 | 1 => body = message::body(rng),
        2 => {
            // As long as a message gets.
            body.extend_from_slice(&[0x08, 0x64]);
            loop {
                let mut next = Vec::new();
                minip2p_core::encode_bytes_field(&mut next, 2, &addresses::any(rng));
                if body.len() + next.len() > 4096 {
                    break;
                }
                body.extend(next);
            }
            if rng.one_in(2) {
                let left = 4096 - body.len();
                let pad = rng.pick(&[left, left + 1]);
                if pad >= 2 {
                    minip2p_core::encode_bytes_field(&mut body, 3, &vec![0; pad - 2]);
                }
            }
        }
        _ => {
            body = connect(rng);
            if rng.one_in(12) {
                let field = rng.pick(&[0, 3, 536_870_911, 536_870_912]);
                minip2p_core::encode_varint_field(&mut body, field, rng.number());
            }
            if rng.one_in(20) {
                // An unknown varint of ten bytes, its tenth around its limit.
                body.push(0x18);
                body.extend_from_slice(&[0xff; 9]);
                body.push(rng.pick(&[0, 1, 2, 3]));
            }
        }
    }
    let mut frame = minip2p_core::encode_frame(&body);
    if rng.one_in(20) && body.len() < 128 {
        // The length in a form that is not the shortest.
        frame[0] |= 0x80;
        frame.insert(1, 0);
    }
    if rng.one_in(8) {
        addresses::damage(rng, &mut frame);
    }
    if rng.one_in(10) {
        let behind = rng.index(5);
        frame.extend(rng.bytes(behind));
    }
    if frame.is_empty() {
        frame.push(0);
    }
    frame
}

/// Changes a line so that it usually has no known form.
fn damage_line(rng: &mut Rng, line: &mut Vec<u8>) {
    let at = rng.index(line.len());
    match rng.below(10) {
        0 => {
            line.remove(at);
        }
        1 => line[at] = rng.draw() as u8,
        2 => line.insert(at, line[at]),
        3 => line.insert(at, b' '),
        4 => line.push(b'\r'),
        5 => line.push(b' '),
        6 => line.truncate(at),
        7 => line[at] = line[at].to_ascii_uppercase(),
        8 => {
            // A number past 2^64 − 1, or with a leading zero.
            let digits = rng.pick(&["18446744073709551616", "00", "01", "99999999999999999999"]);
            if let Some(equals) = line.iter().position(|byte| *byte == b'=') {
                let equals = if rng.one_in(2) {
                    equals
                } else {
                    last_equals(line, at, equals)
                };
                let end = line[equals..].iter().position(|byte| *byte == b' ');
                let end = end.map_or(line.len(), |end| equals + end);
                line.splice(equals + 1..end, digits.bytes());
            }
        }
        _ => line.insert(at, rng.pick(b"0-:,=az\0\xff")),
    }
    line.retain(|byte| *byte != b'\n');
}

fn last_equals(line: &[u8], before: usize, otherwise: usize) -> usize {
    let found = line[..before].iter().rposition(|byte| *byte == b'=');
    found.unwrap_or(otherwise)
}
