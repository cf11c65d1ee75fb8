//! Reads a journal and prints its output, or with `--questions` what the
//! circuit answers after each line.

use std::io::{self, Read, Write};

fn main() -> io::Result<()> {
    let mut input = Vec::new();
    io::stdin().lock().read_to_end(&mut input)?;
    let mut out = io::BufWriter::new(io::stdout().lock());
    if std::env::args().any(|arg| arg == "--questions") {
        oracle::journal::run_questions(&input, &mut out)?;
    } else {
        oracle::journal::run(&input, &mut out)?;
    }
    out.flush()
}
