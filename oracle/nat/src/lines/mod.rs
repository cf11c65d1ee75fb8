//! Line drivers: one answer line for each input line, `bad` for a line of no
//! known form.

mod budget;
mod candidate;
mod ledger;
mod message;
mod schedule;

use std::io::{self, Write};

use crate::budget::UpgradeBudget;
use crate::text;

type Answer = dyn FnMut(&[u8]) -> Option<String>;

/// What is kept from line to line.
#[derive(Default)]
struct Kept {
    budget: Option<UpgradeBudget>,
    schedule: schedule::Schedule,
    ledger: ledger::Tables,
}

impl Kept {
    /// A line of any format: no two have a line in common.
    fn answer(&mut self, line: &[u8]) -> Option<String> {
        message::answer(line)
            .or_else(|| candidate::answer(line))
            .or_else(|| budget::answer(&mut self.budget, line))
            .or_else(|| self.schedule.answer(line))
            .or_else(|| self.ledger.answer(line))
    }
}

/// Answers every line of `input` in the format that `mode` names, with `calls`
/// in any; `None` for an unknown mode.
pub fn run(mode: &str, input: &[u8], out: &mut impl Write) -> Option<io::Result<()>> {
    let mut answer: Box<Answer> = match mode {
        "message" => Box::new(message::answer),
        "candidate" => Box::new(candidate::answer),
        "budget" => {
            let mut kept = None;
            Box::new(move |line| budget::answer(&mut kept, line))
        }
        "schedule" => {
            let mut kept = schedule::Schedule::default();
            Box::new(move |line| kept.answer(line))
        }
        "ledger" => {
            let mut kept = ledger::Tables::default();
            Box::new(move |line| kept.answer(line))
        }
        "calls" => {
            let mut kept = Kept::default();
            Box::new(move |line| kept.answer(line))
        }
        _ => return None,
    };
    let written = text::lines(input).try_for_each(|line| {
        let answer = line.and_then(&mut answer);
        writeln!(out, "{}", answer.as_deref().unwrap_or("bad"))
    });
    Some(written)
}
