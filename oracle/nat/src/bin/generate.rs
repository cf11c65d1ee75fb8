//! Prints inputs made from a seed: `generate MODE SEED COUNT`, with MODE
//! message, candidate, budget, schedule or ledger; `generate exhaustive`;
//! `generate journal SEED`.

use std::io::{self, Write};

fn main() -> io::Result<()> {
    let args: Vec<String> = std::env::args().skip(1).collect();
    let args: Vec<&str> = args.iter().map(String::as_str).collect();
    if let ["journal", seed] = args[..]
        && let Ok(seed) = seed.parse()
    {
        return io::stdout().write_all(&oracle::generate::journal(seed));
    }
    let lines = match args[..] {
        ["exhaustive"] => Some(oracle::generate::exhaustive()),
        [mode, seed, count] => match (seed.parse(), count.parse()) {
            (Ok(seed), Ok(count)) => oracle::generate::lines(mode, seed, count),
            _ => None,
        },
        _ => None,
    };
    let Some(lines) = lines else {
        eprintln!("usage: generate message|candidate|budget|schedule|ledger SEED COUNT");
        eprintln!("       generate exhaustive");
        eprintln!("       generate journal SEED");
        std::process::exit(2);
    };
    let mut out = io::BufWriter::new(io::stdout().lock());
    for line in lines {
        writeln!(out, "{line}")?;
    }
    out.flush()
}
