//! Paths: tables filled and freed, windows that end, dials that overwrite.

use super::rng::Rng;
use crate::text::hex;

pub(super) fn named() -> Vec<String> {
    let mut out: Vec<String> = Vec::new();
    fill(&mut out);
    let lines = "do=empty
do=dial conn=5 token=1 purpose=relay of=3 relay=9
do=dial conn=3 token=2 purpose=punch of=3 relay=0
do=dial conn=9 token=3 purpose=probe of=4 relay=0
do=dial conn=1 token=4 purpose=reserve of=4 relay=0
do=dial conn=7 token=5 purpose=punch of=4 relay=6
ROWS
do=abort live=- id=3 target=8
ROWS
do=dial conn=5 token=1 purpose=relay of=3 relay=9
do=dial conn=3 token=2 purpose=punch of=3 relay=0
do=dial conn=4 token=6 purpose=punch of=3 relay=0
do=dial conn=6 token=7 purpose=relay of=3 relay=10
do=abort live=9:5,8:3,8:4,10:5,10:6 id=3 target=8
ROWS
do=abort live=8:3 id=9 target=8
do=finish conn=3
do=finish conn=3
do=finish conn=9
do=finish conn=1
do=finish conn=7
do=dial conn=2 token=1 purpose=punch of=3 relay=0
do=dial conn=2 token=2 purpose=relay of=4 relay=5
do=finish conn=2
do=empty
do=next
do=quiet
do=expect peer=5 until=100
do=expect peer=5 until=90
do=expect peer=4 until=110
do=next
do=quiet
do=attribute at=99 peer=5 conn=1 via=direct claim=none relay=0 id=0
do=attribute at=100 peer=5 conn=2 via=direct claim=none relay=0 id=0
do=attribute at=99 peer=5 conn=3 via=direct claim=direct relay=0 id=6
do=attribute at=99 peer=5 conn=4 via=circuit claim=none relay=9 id=8
do=attribute at=99 peer=5 conn=5 via=circuit claim=inbound relay=9 id=0
do=attribute at=99 peer=5 conn=6 via=circuit claim=attempt relay=9 id=8
do=attribute at=99 peer=5 conn=7 via=circuit claim=direct relay=0 id=8
do=dial conn=8 token=1 purpose=punch of=12 relay=0
do=dial conn=9 token=1 purpose=relay of=12 relay=3
do=attribute at=200 peer=5 conn=8 via=direct claim=direct relay=0 id=6
do=attribute at=200 peer=5 conn=9 via=direct claim=none relay=0 id=0
do=attribute at=99 peer=5 conn=10 via=direct claim=inbound relay=9 id=0
do=attribute at=99 peer=5 conn=5 via=circuit claim=none relay=0 id=0
do=attribute at=99 peer=5 conn=8 via=circuit claim=none relay=0 id=0
ROWS
do=punched conn=1
do=punched conn=2
do=punched conn=8
do=punched conn=77
do=replaced path=relayed relay=9 owner=inbound id=0 new=1
do=replaced path=relayed relay=9 owner=attempt id=7 new=2
do=replaced path=relayed relay=9 owner=none id=7 new=2
do=replaced path=relayed relay=9 owner=attempt id=7 new=5
do=replaced path=relayed relay=9 owner=attempt id=7 new=77
do=replaced path=punched relay=9 owner=attempt id=7 new=2
do=replaced path=direct relay=9 owner=inbound id=0 new=2
do=expire at=99
do=next
do=expire at=100
do=next
do=close peer=4
do=next
do=quiet
do=expect peer=7 until=0
do=next
do=quiet
do=attribute at=0 peer=7 conn=20 via=direct claim=none relay=0 id=0
do=expire at=0
do=quiet
do=forget conn=8
do=forget conn=8
do=forget conn=5
do=forget conn=77
ROWS
do=expect peer=1 until=18446744073709551615
do=attribute at=18446744073709551614 peer=1 conn=18446744073709551615 via=direct claim=none relay=0 id=0
do=attribute at=18446744073709551615 peer=1 conn=18446744073709551615 via=direct claim=none relay=0 id=0
do=expire at=18446744073709551614
do=next
do=expire at=18446744073709551615
do=next
do=dial conn=18446744073709551615 token=18446744073709551615 purpose=relay of=3 relay=18446744073709551614
do=abort live=18446744073709551614:18446744073709551615 id=3 target=8
do=dial conn=18446744073709551615 token=18446744073709551614 purpose=punch of=3 relay=0
do=abort live=00000000000000080000000000000001000000000000000800 id=3 target=8
do=dial conn=1 token=1 purpose=other of=1 relay=0
do=dial conn=1 token=1 purpose=punch peer=1 relay=0
do=dial conn=1 token=1 purpose=punch of=1
do=attribute at=1 peer=1 conn=1 via=direct claim=circuit relay=1 id=0
do=attribute at=1 peer=1 conn=1 via=direct claim=inbound relay=1
do=attribute at=1 peer=1 conn=1 via=relay claim=none relay=0 id=0
do=abort live= id=1 target=1
do=abort live=1 id=1 target=1
do=abort id=1 target=1 live=-
do=replaced path=relayed owner=none id=0 new=1
do=row table=dial place=0
do=row table=paths place=18446744073709551615
do=quiet more=1";
    for line in lines.lines() {
        match line {
            "ROWS" => rows(&mut out, 12),
            _ => out.push(in_bytes(line)),
        }
    }
    out
}

/// The first places of each table.
fn rows(out: &mut Vec<String>, places: u64) {
    for table in ["dials", "windows", "paths"] {
        out.extend((0..places).map(|place| format!("do=row table={table} place={place}")));
    }
}

/// Live connections as eight bytes for each number.
fn records(live: &[(u64, u64)]) -> String {
    let bytes: Vec<u8> = (live.iter())
        .flat_map(|(peer, conn)| [peer.to_be_bytes(), conn.to_be_bytes()])
        .flatten()
        .collect();
    hex(&bytes)
}

/// A line whose live connections stand there as `PEER:CONNECTION`, commas
/// between.
fn in_bytes(line: &str) -> String {
    let words = line
        .split(' ')
        .map(|word| match word.strip_prefix("live=") {
            Some(live) if live.contains(':') => {
                let number = |text: &str| text.parse().expect("a number");
                let live: Vec<(u64, u64)> = (live.split(','))
                    .map(|record| record.split_once(':').expect("a record"))
                    .map(|(peer, conn)| (number(peer), number(conn)))
                    .collect();
                format!("live={}", records(&live))
            }
            _ => word.to_string(),
        });
    words.collect::<Vec<String>>().join(" ")
}

/// Each table to its 64 rows, the 65th refused, a row there changed, a freed
/// row used again.
fn fill(out: &mut Vec<String>) {
    let order = |n: u64| 1 + n * 37 % 64;
    for n in 0..64 {
        out.push(format!(
            "do=dial conn={} token={n} purpose=punch of=1 relay=0",
            order(n)
        ));
        out.push(format!("do=expect peer={} until={}", order(n), 1000 + n));
        out.push(format!(
            "do=attribute at=0 peer=99 conn={} via=direct claim=none relay=0 id=0",
            order(n)
        ));
    }
    let lines = "ROWS
do=dial conn=65 token=1 purpose=probe of=3 relay=0
do=dial conn=64 token=1 purpose=probe of=3 relay=0
do=expect peer=65 until=1
do=expect peer=0 until=9
do=expect peer=64 until=5000
do=attribute at=1 peer=1 conn=65 via=direct claim=none relay=0 id=0
do=attribute at=1 peer=1 conn=65 via=circuit claim=none relay=0 id=0
do=attribute at=1 peer=1 conn=65 via=circuit claim=inbound relay=1 id=0
do=attribute at=1 peer=1 conn=64 via=circuit claim=inbound relay=1 id=0
do=finish conn=20
do=dial conn=0 token=1 purpose=probe of=3 relay=0
do=dial conn=20 token=1 purpose=probe of=3 relay=0
do=close peer=20
do=expect peer=77 until=1001
do=expect peer=78 until=1001
do=forget conn=30
do=attribute at=1 peer=1 conn=90 via=direct claim=direct relay=0 id=4
do=attribute at=1 peer=1 conn=91 via=direct claim=direct relay=0 id=4
do=dial conn=30 token=1 purpose=probe of=3 relay=0
ROWS
do=abort live=5:12 id=1 target=5
do=expire at=1030
ROWS";
    for line in lines.lines() {
        match line {
            "ROWS" => rows(out, 65),
            _ => out.push(in_bytes(line)),
        }
    }
}

/// A stretch of calls over few numbers, or over more than a table holds.
pub(super) fn random(rng: &mut Rng) -> Vec<String> {
    let span = rng.pick(&[4, 12, 90, 300]);
    let base = rng.pick(&[0, 0, u64::MAX - (span - 1)]);
    let length = if span < 90 { 40 } else { 400 };
    let mut out = vec!["do=empty".to_string()];
    let mut clock = rng.below(100);
    for _ in 0..length {
        out.push(call(rng, base, span, &mut clock));
    }
    rows(&mut out, span.min(64) + 1);
    out
}

fn call(rng: &mut Rng, base: u64, span: u64, clock: &mut u64) -> String {
    let (conn, peer) = (base + rng.below(span), base + rng.below(span));
    let (id, relay) = (rng.below(4), rng.below(4));
    let until = clock.saturating_add(rng.below(200));
    match rng.below(40) {
        0..9 => {
            let purpose = match rng.below(6) {
                0 | 1 => format!("relay of={id} relay={relay}"),
                2 => format!("probe of={peer} relay=0"),
                3 => format!("reserve of={peer} relay=0"),
                _ => format!("punch of={id} relay=0"),
            };
            format!(
                "do=dial conn={conn} token={} purpose={purpose}",
                rng.below(1000)
            )
        }
        9..11 => format!("do=finish conn={conn}"),
        11 => {
            let live: Vec<(u64, u64)> = (0..rng.below(6))
                .map(|_| {
                    let other = rng.below(4);
                    let peer = rng.pick(&[relay, peer, other]);
                    (peer, base + rng.below(span))
                })
                .collect();
            format!("do=abort live={} id={id} target={peer}", records(&live))
        }
        12..20 => format!("do=expect peer={peer} until={until}"),
        20 => format!("do=close peer={peer}"),
        21..30 => {
            let via = rng.pick(&["circuit", "direct", "direct"]);
            let claim = match rng.below(6) {
                0 => format!("inbound relay={relay} id=0"),
                1 => format!("attempt relay={relay} id={id}"),
                2 => format!("direct relay=0 id={id}"),
                _ => "none relay=0 id=0".to_string(),
            };
            let at = rng.near(*clock);
            format!("do=attribute at={at} peer={peer} conn={conn} via={via} claim={claim}")
        }
        30 => {
            let path = rng.pick(&[
                "punched relay=0".to_string(),
                "direct relay=0".to_string(),
                format!("relayed relay={relay}"),
            ]);
            let owner = rng.pick(&[
                "none id=0".to_string(),
                "inbound id=0".to_string(),
                format!("attempt id={id}"),
            ]);
            format!("do=replaced path={path} owner={owner} new={conn}")
        }
        31..34 => format!("do=forget conn={conn}"),
        34 => format!("do=punched conn={conn}"),
        // Windows that end are rows freed, so a wide stretch seldom has this.
        35 if span < 90 || rng.one_in(8) => {
            *clock = match rng.below(8) {
                0 => clock.saturating_sub(rng.below(30)),
                _ => clock.saturating_add(rng.below(30)),
            };
            format!("do=expire at={clock}")
        }
        36 => "do=next".to_string(),
        37 => "do=quiet".to_string(),
        _ => {
            let table = rng.pick(&["dials", "windows", "paths"]);
            format!("do=row table={table} place={}", rng.below(span.min(64) + 1))
        }
    }
}
