//! Inputs made from a seed.

mod addresses;
mod budget;
mod candidate;
mod journal;
mod ledger;
mod message;
mod rng;
mod schedule;

pub use journal::journal;
use rng::Rng;

type Random = fn(&mut Rng) -> Vec<String>;

/// The cases named one by one, then `count` random lines; `None` for an
/// unknown mode.
pub fn lines(mode: &str, seed: u64, count: usize) -> Option<Vec<String>> {
    let mut rng = Rng::new(seed);
    let (mut named, random): (Vec<String>, Random) = match mode {
        "message" => (message::named(), message::random),
        "candidate" => (candidate::named(), candidate::random),
        "budget" => (budget::named(), budget::random),
        "schedule" => (schedule::named(), schedule::random),
        "ledger" => (ledger::named(), ledger::random),
        _ => return None,
    };
    let end = named.len() + count;
    while named.len() < end {
        named.extend(random(&mut rng));
    }
    named.truncate(end);
    Some(named)
}

/// Every input of one and of two bytes, for the calls that read bytes.
pub fn exhaustive() -> Vec<String> {
    let mut inputs: Vec<Vec<u8>> = (0..=255u8).map(|byte| vec![byte]).collect();
    inputs.extend((0..=255u8).flat_map(|a| (0..=255u8).map(move |b| vec![a, b])));
    let mut out = Vec::new();
    for input in inputs {
        let hex = crate::text::hex(&input);
        out.push(format!("do=varint in={hex}"));
        out.push(format!("do=frame in={hex} count={}", input.len()));
        out.push(format!("do=list in={hex}"));
        out.push(format!("do=read in={hex} room=4"));
    }
    out
}
