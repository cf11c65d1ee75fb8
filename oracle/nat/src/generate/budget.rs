//! Rounds, with clocks that go back and times near the end.

use super::rng::Rng;

pub(super) fn named() -> Vec<String> {
    let lines = "do=begin at=1
do=end
do=window start=1
do=due at=1
do=arm at=0 upgrade=10000 exchange=2000 punch=100
do=begin at=10
do=due at=2009
do=due at=2010
do=due at=9999
do=due at=10000
do=window start=40
do=window start=9950
do=window start=10001
do=end
do=due at=2010
do=begin at=9000
do=due at=9999
do=due at=10000
do=begin at=9999
do=begin at=9999
do=end
do=arm at=5 upgrade=0 exchange=0 punch=0
do=begin at=4
do=begin at=5
do=due at=4
do=due at=5
do=arm at=18446744073709551615 upgrade=1 exchange=1 punch=1
do=begin at=18446744073709551614
do=begin at=18446744073709551615
do=due at=18446744073709551615
do=window start=18446744073709551615
do=arm at=100 upgrade=50 exchange=50 punch=18446744073709551615
do=begin at=100
do=due at=150
do=begin at=0
do=due at=49
do=due at=50
do=due at=149
do=due at=150
do=begin at=120 more=1
do=begin at=01
do=arm at=1 upgrade=1 exchange=1
do=end at=1";
    lines.lines().map(str::to_string).collect()
}

pub(super) fn random(rng: &mut Rng) -> Vec<String> {
    let at = rng.number();
    let wide = rng.one_in(4);
    let time = |rng: &mut Rng| if wide { rng.number() } else { rng.below(200) };
    let (upgrade, exchange, punch) = (time(rng), time(rng), time(rng));
    let mut out = vec![format!(
        "do=arm at={at} upgrade={upgrade} exchange={exchange} punch={punch}"
    )];
    let deadline = at.saturating_add(upgrade);
    let mut clock = at;
    for _ in 0..2 + rng.below(10) {
        clock = match rng.below(6) {
            0 => rng.near(deadline),
            1 => {
                let end = clock.saturating_add(exchange);
                rng.near(end)
            }
            2 => rng.near(at),
            3 => rng.number(),
            _ => clock.saturating_add(rng.below(60)),
        };
        out.push(match rng.below(6) {
            0 => "do=end".to_string(),
            1 => format!("do=window start={clock}"),
            2 | 3 => format!("do=due at={clock}"),
            _ => format!("do=begin at={clock}"),
        });
    }
    out
}
