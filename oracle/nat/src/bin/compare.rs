//! Holds the Rust against other programs.
//!
//! `compare SEED COUNT FORMAT=PROGRAM ..` with FORMAT journal, questions,
//! message, candidate, budget, schedule or ledger. A PROGRAM that begins with
//! `many:` answers many inputs, each after a line with its length. COUNT
//! journals are run, or COUNT random lines beside the named ones. Stops at the
//! first difference, with exit code 1; it is shrunk first, unless COUNT is
//! followed by `--first`.

use std::io::{self, Write};
use std::path::Path;
use std::process::ExitCode;

use oracle::compare::{Kinds, Model, Pair, Program, Rust, Side};
use oracle::generate;

/// Random lines answered in one run of a program.
const CHUNK: usize = 2_000;

fn main() -> io::Result<ExitCode> {
    let args: Vec<String> = std::env::args().skip(1).collect();
    let numbers: Vec<u64> = args.iter().take(2).flat_map(|arg| arg.parse()).collect();
    let [seed, count] = numbers[..] else {
        eprintln!("usage: compare SEED COUNT FORMAT=PROGRAM ..");
        return Ok(ExitCode::from(2));
    };
    // A stop of the Rust is an answer here, reported with its input.
    std::panic::set_hook(Box::new(|stop| eprintln!("{stop}")));
    let shrink = args.get(2).is_none_or(|arg| arg != "--first");
    for arg in &args[if shrink { 2 } else { 3 }..] {
        let Some((mode, program)) = arg.split_once('=') else {
            eprintln!("{arg}: not FORMAT=PROGRAM");
            return Ok(ExitCode::from(2));
        };
        // The test program answers lines of any format.
        let (answers, mut other): (&str, Box<dyn Side>) = match program.strip_prefix("many:") {
            Some(path) => (mode, Box::new(Model::new(Path::new(path), mode)?)),
            None => {
                let path = program.into();
                let answers = if of_journals(mode) { mode } else { "calls" };
                (answers, Box::new(Program { path }))
            }
        };
        if !compared(mode, answers, seed, count, shrink, &mut *other)? {
            return Ok(ExitCode::FAILURE);
        }
    }
    Ok(ExitCode::SUCCESS)
}

fn compared(
    mode: &str,
    answers: &str,
    seed: u64,
    count: u64,
    shrink: bool,
    other: &mut dyn Side,
) -> io::Result<bool> {
    let rust = Rust {
        mode: answers.to_string(),
    };
    let mut pair = Pair { rust, other };
    let mut kinds = Kinds::new();
    let mut lines = 0;
    for (n, input) in inputs(mode, seed, count).enumerate() {
        lines += input.iter().filter(|byte| **byte == b'\n').count();
        if pair.agree(&input, &mut kinds)? {
            continue;
        }
        println!("{mode}: a difference in input {} (seed {seed})", n + 1);
        if shrink {
            let small = pair.shrink(&input)?;
            report(&small, &mut pair)?;
        }
        return Ok(false);
    }
    let what = if of_journals(mode) {
        format!("{count} journals, {lines} lines")
    } else {
        format!("{lines} lines")
    };
    println!("{mode}: {what}, no difference (seed {seed})");
    let kinds: Vec<String> = kinds
        .iter()
        .map(|(kind, n)| format!("{kind} {n}"))
        .collect();
    println!("  {}", kinds.join(", "));
    Ok(true)
}

/// Formats whose inputs are journals.
fn of_journals(mode: &str) -> bool {
    mode == "journal" || mode == "questions"
}

fn inputs(mode: &str, seed: u64, count: u64) -> Box<dyn Iterator<Item = Vec<u8>>> {
    if of_journals(mode) {
        // Seeds of one run are not those of the next.
        let first = seed.wrapping_mul(1_000_003);
        return Box::new((0..count).map(move |n| generate::journal(first.wrapping_add(n))));
    }
    let mut lines = generate::lines(mode, seed, count as usize).expect("a known format");
    if mode == "message" {
        lines.extend(generate::exhaustive());
    }
    let stateful = mode != "message" && mode != "candidate";
    let chunk = if stateful { lines.len() } else { CHUNK };
    let text = |chunk: &[String]| {
        chunk
            .iter()
            .flat_map(|line| [line, "\n"].concat().into_bytes())
            .collect()
    };
    let chunks: Vec<Vec<u8>> = lines.chunks(chunk).map(text).collect();
    Box::new(chunks.into_iter())
}

fn report(input: &[u8], pair: &mut Pair<'_>) -> io::Result<()> {
    let mut out = io::stdout().lock();
    writeln!(out, "-- the smallest input found:")?;
    out.write_all(input)?;
    if !input.ends_with(b"\n") {
        writeln!(out)?;
    }
    writeln!(out, "-- the Rust:")?;
    out.write_all(&pair.rust.answer(input)?)?;
    writeln!(out, "-- the other program:")?;
    out.write_all(&pair.other.answer(input)?)
}
