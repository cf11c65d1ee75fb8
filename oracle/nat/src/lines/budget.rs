//! Rounds: the given `UpgradeBudget`.

use crate::budget::UpgradeBudget;
use crate::config::NatConfig;
use crate::text::Words;
use crate::types::UpgradeStop;

pub(super) fn answer(kept: &mut Option<UpgradeBudget>, line: &[u8]) -> Option<String> {
    let mut words = Words::new(line);
    let word = words.word("do")?;
    if word == b"arm" {
        let at = words.number("at")?;
        let config = NatConfig {
            upgrade_timeout_ms: words.number("upgrade")?,
            dcutr_exchange_timeout_ms: words.number("exchange")?,
            punch_deadline_ms: words.number("punch")?,
            ..NatConfig::default()
        };
        words.end(())?;
        let budget = kept.insert(UpgradeBudget::arm(at, &config, None));
        return Some(state(budget));
    }
    let budget = kept.as_mut()?;
    match word {
        b"begin" => {
            let at = words.number("at")?;
            words.end(())?;
            let began = budget.begin_round(at);
            Some(format!("began={} {}", u8::from(began), state(budget)))
        }
        b"end" => {
            words.end(())?;
            budget.end_exchange();
            Some(state(budget))
        }
        b"window" => {
            let start = words.number("start")?;
            words.end(format!("end={}", budget.punch_window_end(start)))
        }
        b"due" => {
            let at = words.number("at")?;
            words.end(due(budget.due(at)))
        }
        _ => None,
    }
}

fn state(budget: &UpgradeBudget) -> String {
    format!(
        "rounds={} left={} deadline={} next={}",
        budget.rounds(),
        u8::from(budget.rounds_left()),
        budget.deadline(),
        budget.next_deadline()
    )
}

fn due(stop: Option<UpgradeStop>) -> String {
    match stop {
        None => "due=none".to_string(),
        Some(UpgradeStop::ExchangeTimeout { round, budget_ms }) => {
            format!("due=exchange round={round} ms={budget_ms}")
        }
        Some(UpgradeStop::UpgradeTimeout { budget_ms }) => format!("due=upgrade ms={budget_ms}"),
        Some(other) => unreachable!("no holder's budget ends by {other:?}"),
    }
}
