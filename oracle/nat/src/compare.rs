//! Inputs run through the Rust and through another program, held against
//! each other, and a difference shrunk to the smallest input that shows it.

use std::collections::BTreeMap;
use std::io::{self, Read, Write};
use std::panic::{self, AssertUnwindSafe};
use std::path::{Path, PathBuf};
use std::process::{Child, ChildStdin, ChildStdout, Command, Stdio};

use crate::bursts::LOOP_LIMIT;

/// Something that answers inputs of one format.
pub trait Side {
    fn answer(&mut self, input: &[u8]) -> io::Result<Vec<u8>>;
}

/// The Rust, in this process.
pub struct Rust {
    pub mode: String,
}

impl Side for Rust {
    fn answer(&mut self, input: &[u8]) -> io::Result<Vec<u8>> {
        let mut out = Vec::new();
        let ran = panic::catch_unwind(AssertUnwindSafe(|| match self.mode.as_str() {
            "journal" => crate::journal::run(input, &mut out),
            "questions" => crate::journal::run_questions(input, &mut out),
            mode => crate::lines::run(mode, input, &mut out).expect("a known mode"),
        }));
        if let Ok(written) = ran {
            written?;
        } else {
            out.extend_from_slice(b"the Rust stopped\n");
        }
        Ok(out)
    }
}

/// A program that reads one input and ends.
pub struct Program {
    pub path: PathBuf,
}

impl Side for Program {
    fn answer(&mut self, input: &[u8]) -> io::Result<Vec<u8>> {
        let mut child = Command::new(&self.path)
            .stdin(Stdio::piped())
            .stdout(Stdio::piped())
            .spawn()?;
        let mut stdin = child.stdin.take().expect("piped");
        let mut stdout = child.stdout.take().expect("piped");
        let mut out = Vec::new();
        std::thread::scope(|scope| {
            // A program may end before it has read everything.
            scope.spawn(move || drop(stdin.write_all(input)));
            stdout.read_to_end(&mut out)
        })?;
        let status = child.wait()?;
        if !status.success() {
            out.extend(format!("the program ended with {status}\n").into_bytes());
        }
        Ok(out)
    }
}

/// A program that answers many inputs, each after a line with its length.
pub struct Model {
    child: Child,
    stdin: ChildStdin,
    stdout: ChildStdout,
}

impl Model {
    pub fn new(path: &Path, mode: &str) -> io::Result<Self> {
        let mut child = Command::new(path)
            .args(["--many", mode])
            .stdin(Stdio::piped())
            .stdout(Stdio::piped())
            .spawn()?;
        Ok(Self {
            stdin: child.stdin.take().expect("piped"),
            stdout: child.stdout.take().expect("piped"),
            child,
        })
    }
}

impl Side for Model {
    fn answer(&mut self, input: &[u8]) -> io::Result<Vec<u8>> {
        writeln!(self.stdin, "{}", input.len())?;
        self.stdin.write_all(input)?;
        self.stdin.flush()?;
        let mut len = 0;
        loop {
            let mut byte = [0];
            self.stdout.read_exact(&mut byte)?;
            match byte[0] {
                b'\n' => break,
                digit => len = 10 * len + usize::from(digit - b'0'),
            }
        }
        let mut out = vec![0; len];
        self.stdout.read_exact(&mut out)?;
        Ok(out)
    }
}

impl Drop for Model {
    fn drop(&mut self) {
        // Its input ends with this process; nothing is left to report.
        let _ = self.child.kill();
        let _ = self.child.wait();
    }
}

/// How often each kind of answer came: the first words without numbers.
pub type Kinds = BTreeMap<String, u64>;

pub fn count(kinds: &mut Kinds, answer: &[u8]) {
    for line in String::from_utf8_lossy(answer).lines() {
        let kind = match line.split_once(" out=") {
            Some((n, effect)) if n.starts_with("n=") => effect,
            _ => line,
        };
        let words: Vec<&str> = kind.split(' ').collect();
        let kind = match words[..] {
            ["refused", why, ..] => format!("refused {why}"),
            ["attributed", path, ..] => format!("attributed {path}"),
            [n, next, promotes, claims, took] if n.starts_with("n=") => {
                let next = if next == "next=none" { next } else { "next" };
                format!("{next} {promotes} {claims} {took}")
            }
            ["burst", times, ..] if past_loop(times) => "burst counted by closed form".to_string(),
            [first, ..] => first.split(['=', ':']).next().unwrap_or(first).to_string(),
            [] => continue,
        };
        *kinds.entry(kind).or_default() += 1;
    }
}

fn past_loop(times: &str) -> bool {
    let times = times
        .strip_prefix("times=")
        .and_then(|times| times.parse().ok());
    times.is_some_and(|times: u64| times > LOOP_LIMIT)
}

/// Two sides of one format.
pub struct Pair<'a> {
    pub rust: Rust,
    pub other: &'a mut dyn Side,
}

impl Pair<'_> {
    /// Whether the sides agree on an input; counts the answers.
    pub fn agree(&mut self, input: &[u8], kinds: &mut Kinds) -> io::Result<bool> {
        let rust = self.rust.answer(input)?;
        count(kinds, &rust);
        Ok(rust == self.other.answer(input)?)
    }

    fn differ(&mut self, input: &[u8]) -> io::Result<bool> {
        Ok(self.rust.answer(input)? != self.other.answer(input)?)
    }

    /// The smallest input found on which the sides still differ: lines are
    /// taken away in ever smaller runs, then words made simpler.
    pub fn shrink(&mut self, input: &[u8]) -> io::Result<Vec<u8>> {
        let mut lines = split(input);
        self.first_difference(&mut lines)?;
        let mut changed = true;
        while changed {
            changed = self.fewer_lines(&mut lines)? | self.simpler_words(&mut lines)?;
        }
        Ok(lines.concat())
    }

    /// Drops what stands behind the first differing answer, if that helps.
    fn first_difference(&mut self, lines: &mut Vec<Vec<u8>>) -> io::Result<()> {
        let (mut same, mut differ) = (0, lines.len());
        while same + 1 < differ {
            let middle = same + (differ - same) / 2;
            if self.differ(&lines[..middle].concat())? {
                differ = middle;
            } else {
                same = middle;
            }
        }
        if self.differ(&lines[..differ].concat())? {
            lines.truncate(differ);
        }
        Ok(())
    }

    fn fewer_lines(&mut self, lines: &mut Vec<Vec<u8>>) -> io::Result<bool> {
        let mut changed = false;
        let mut run = lines.len() / 2;
        while run > 0 {
            let mut at = 0;
            while at + run <= lines.len() {
                let mut fewer = lines.clone();
                fewer.drain(at..at + run);
                if self.differ(&fewer.concat())? {
                    *lines = fewer;
                    changed = true;
                } else {
                    at += run;
                }
            }
            run /= 2;
        }
        Ok(changed)
    }

    fn simpler_words(&mut self, lines: &mut [Vec<u8>]) -> io::Result<bool> {
        let mut changed = false;
        for at in 0..lines.len() {
            let words = lines[at].split(|byte| *byte == b' ').count();
            for word in 0..words {
                for simpler in simpler(&lines[at], word) {
                    let kept = std::mem::replace(&mut lines[at], simpler);
                    if self.differ(&lines.concat())? {
                        changed = true;
                        break;
                    }
                    lines[at] = kept;
                }
            }
        }
        Ok(changed)
    }
}

fn split(input: &[u8]) -> Vec<Vec<u8>> {
    (input.split_inclusive(|byte| *byte == b'\n'))
        .map(<[u8]>::to_vec)
        .collect()
}

/// The line with one word's value made simpler, simplest first; each is
/// shorter than the line, or a smaller number.
fn simpler(line: &[u8], word: usize) -> Vec<Vec<u8>> {
    let words: Vec<&[u8]> = line.split(|byte| *byte == b' ').collect();
    let Some(equals) = words[word].iter().position(|byte| *byte == b'=') else {
        return Vec::new();
    };
    let (key, value) = words[word].split_at(equals + 1);
    let (value, feed) = match value.strip_suffix(b"\n") {
        Some(value) => (value, &b"\n"[..]),
        None => (value, &b""[..]),
    };
    let mut values: Vec<Vec<u8>> = vec![b"-".to_vec(), b"none".to_vec(), b"0".to_vec()];
    if key == b"data=" {
        // CONNECT without an address, and with one.
        values.push(b"020864".to_vec());
        values.push(b"0f0864120b04c000000991020fa1cd03".to_vec());
    }
    values.retain(|simple| simple.len() < value.len());
    if let Some(number) = crate::text::number(value) {
        let smaller = [0, 1, 7, number / 2, number.saturating_sub(1)];
        let smaller = smaller.into_iter().filter(|small| *small < number);
        values.extend(smaller.map(|small| small.to_string().into_bytes()));
    } else if let Some(bytes) = crate::text::unhex(value) {
        for cut in [bytes.len() / 2, bytes.len().saturating_sub(1)] {
            values.push(crate::text::hex(&bytes[..cut]).into_bytes());
            values.push(crate::text::hex(&bytes[bytes.len() - cut..]).into_bytes());
        }
        values.retain(|simple| simple.len() < value.len());
    }
    let rebuilt = |value: Vec<u8>| {
        let changed = [key, &value, feed].concat();
        let mut all: Vec<&[u8]> = words.clone();
        all[word] = &changed;
        all.join(&b' ')
    };
    values.into_iter().map(rebuilt).collect()
}
