//! Answers lines: `lines MODE`, with MODE message, candidate, budget, schedule
//! or ledger for the lines of that format, and calls for those of any.

use std::io::{self, Read, Write};

fn main() -> io::Result<()> {
    let mode = std::env::args().nth(1).unwrap_or_default();
    let mut input = Vec::new();
    io::stdin().lock().read_to_end(&mut input)?;
    let mut out = io::BufWriter::new(io::stdout().lock());
    let Some(written) = oracle::lines::run(&mode, &input, &mut out) else {
        eprintln!("usage: lines calls|message|candidate|budget|schedule|ledger");
        std::process::exit(2);
    };
    written?;
    out.flush()
}
