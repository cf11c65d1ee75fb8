//! Instants: windows cut by the deadline, empty ones, and times near the end.

use super::rng::Rng;

pub(super) fn named() -> Vec<String> {
    let lines = "do=tick at=5 interval=1
do=reply at=60 rtt=40 deadline=10010 punch=100 interval=40
do=tick at=79 interval=40
do=tick at=80 interval=40
do=tick at=130 interval=40
do=tick at=180 interval=40
do=tick at=999 interval=40
do=reply at=60 rtt=41 deadline=10010 punch=100 interval=50
do=tick at=80 interval=50
do=tick at=81 interval=50
do=tick at=181 interval=50
do=reply at=60 rtt=0 deadline=10010 punch=0 interval=40
do=tick at=60 interval=40
do=reply at=60 rtt=1 deadline=10010 punch=0 interval=40
do=tick at=60 interval=40
do=tick at=61 interval=40
do=tick at=61 interval=40
do=reply at=60 rtt=0 deadline=10010 punch=100 interval=50
do=tick at=109 interval=50
do=tick at=110 interval=50
do=tick at=50 interval=50
do=tick at=160 interval=50
do=reply at=60 rtt=0 deadline=10010 punch=100 interval=0
do=tick at=70 interval=0
do=tick at=200 interval=0
do=reply at=100 rtt=100 deadline=149 punch=100 interval=10
do=tick at=148 interval=10
do=tick at=149 interval=10
do=tick at=200 interval=10
do=reply at=100 rtt=100 deadline=150 punch=100 interval=10
do=tick at=149 interval=10
do=tick at=150 interval=10
do=reply at=100 rtt=60 deadline=150 punch=100 interval=10
do=tick at=150 interval=10
do=reply at=60 rtt=40 deadline=10010 punch=100 interval=18446744073709551615
do=tick at=180 interval=18446744073709551615
do=reply at=60 rtt=0 deadline=10010 punch=100 interval=18446744073709551615
do=tick at=180 interval=18446744073709551615
do=reply at=18446744073709551600 rtt=4 deadline=18446744073709551615 punch=100 interval=5
do=tick at=18446744073709551607 interval=5
do=tick at=18446744073709551614 interval=5
do=reply at=18446744073709551614 rtt=9 deadline=18446744073709551615 punch=100 interval=5
do=tick at=18446744073709551614 interval=5
do=reply at=10 rtt=4 deadline=18446744073709551615 punch=18446744073709551615 interval=1
do=tick at=1000 interval=1
do=tick at=9223372036854775808 interval=1
do=tick at=18446744073709551614 interval=1
do=reply at=10 rtt=4 deadline=18446744073709551615 punch=18446744073709551615 interval=3
do=tick at=1000000000000 interval=3
do=tick at=1000000000002 interval=3
do=tick at=1000000000003 interval=3
do=tick at=18446744073709551614 interval=3
do=reply at=217 rtt=0 deadline=216 punch=100 interval=10
do=tick at=300 interval=10
do=reply at=217 rtt=0 deadline=217 punch=100 interval=10
do=tick at=300 interval=10
do=tick at=7
do=tick at=07 interval=1
do=reply at=1 rtt=1 deadline=1 punch=1";
    lines.lines().map(str::to_string).collect()
}

pub(super) fn random(rng: &mut Rng) -> Vec<String> {
    let large = rng.one_in(4);
    let at = 1 + rng.number().min(u64::MAX - 2);
    let at = if large { at } else { 1 + at % 100_000 };
    let round_trip = match rng.below(4) {
        0 => 0,
        1 => 1 + rng.below(at),
        _ => rng.below(300).min(at),
    };
    let wide = if large {
        rng.number()
    } else {
        rng.below(2_000)
    };
    let deadline = match rng.below(4) {
        0 => at.saturating_add(1),
        1 => at.saturating_add(rng.below(200)).saturating_add(1),
        _ => at.saturating_add(wide).saturating_add(1),
    };
    let punch = if large { rng.number() } else { rng.below(500) };
    let interval = if rng.one_in(5) {
        rng.number()
    } else {
        rng.below(60)
    };
    let start = at.saturating_add(round_trip.div_ceil(2));
    let end = start.saturating_add(punch).min(deadline);
    let mut out = vec![format!(
        "do=reply at={at} rtt={round_trip} deadline={deadline} punch={punch} interval={interval}"
    )];
    let mut clock = at;
    for _ in 0..1 + rng.below(7) {
        clock = match rng.below(6) {
            0 => rng.near(start),
            1 => rng.near(end),
            2 => rng.near(at),
            3 => clock.saturating_add(interval),
            _ => clock.saturating_add(rng.below(100)),
        };
        out.push(format!(
            "do=tick at={} interval={interval}",
            clock.min(u64::MAX - 1)
        ));
    }
    out
}
