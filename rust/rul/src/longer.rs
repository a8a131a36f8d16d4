//! A stopped sheet again with ten times the sweeps, until it is decided or the budget is used up.

use std::iter;
use std::time::Instant;

use crate::interrupt::{self, LastWords};
use crate::progress::Progress;
use ularimpong::{Outcome, Refusal, Report, Sheet, DESK_BUDGET, MOST_BUDGET};

const FACTOR: i64 = 10;

/// Searches in stages of at most `most` sweeps and gives the last one's report. An interrupt prints
/// the last floor there was, as `printed` has it.
pub fn solve(
    sheet: &Sheet,
    most: i64,
    printed: impl Fn(&Report) -> String,
) -> Result<Report, Refusal> {
    let progress = Progress::new();
    let outcome = stages(sheet, most, &progress, |report, notice| {
        interrupt::keep(LastWords { notice, answer: printed(report) })
    });
    interrupt::release();
    if outcome.is_ok() {
        progress.finish();
    }
    outcome
}

/// Hands each floor to `keep`, with what ends the line that is then on standard error. The first
/// is the floor before any sweep. Each is kept before its stage is shown, so that an interrupt
/// never prints less than was seen.
fn stages(
    sheet: &Sheet,
    most: i64,
    progress: &Progress,
    keep: impl Fn(&Report, &'static str),
) -> Result<Report, Refusal> {
    let mut report = sheet.solve(0)?;
    keep(&report, "");
    for budget in budgets(most) {
        let start = Instant::now();
        report = sheet.solve(budget)?;
        let stopped = matches!(report.outcome, Outcome::Stopped(_));
        if stopped {
            keep(&report, progress.line_end());
        }
        progress.show(sheet, &report, start.elapsed());
        if !stopped {
            break;
        }
    }
    Ok(report)
}

/// The stages' budgets: the desk's, then ten times the one before, and `most` at the end.
fn budgets(most: i64) -> impl Iterator<Item = i64> {
    let next = move |budget: &i64| (*budget < most).then(|| most.min(budget * FACTOR));
    iter::successors(Some(first(most)), next)
}

/// A budget that is not allowed comes first, so that the library refuses it before any search.
fn first(most: i64) -> i64 {
    if most > MOST_BUDGET {
        most
    } else {
        most.min(DESK_BUDGET)
    }
}

#[cfg(test)]
mod tests {
    use super::*;

    #[test]
    fn ten_times_each_and_the_most_last() {
        let listed = |most| budgets(most).collect::<Vec<_>>();
        assert_eq!(listed(30), [30]);
        assert_eq!(listed(100_000), [100_000]);
        assert_eq!(listed(250_000), [100_000, 250_000]);
        assert_eq!(listed(1_000_000), [100_000, 1_000_000]);
        let all = [100_000, 1_000_000, 10_000_000, 100_000_000, 1_000_000_000];
        assert_eq!(listed(MOST_BUDGET), all);
    }

    #[test]
    fn what_is_not_allowed_stands_alone() {
        for most in [-1, MOST_BUDGET + 1, i64::MIN, i64::MAX] {
            assert_eq!(budgets(most).collect::<Vec<_>>(), [most]);
        }
    }
}
