//! Which of many cases are kept.

use crate::case::{Case, Kind};
use crate::slip::ALL;

/// How many cases of a kind are kept.
pub type Quota = (Kind, usize);

/// Keeps as many cases of each kind as its quota says. The next one kept is the
/// one that the slips seen least so far change most; of equal ones the first.
pub fn keep(mut cases: Vec<Case>, quotas: &[Quota]) -> Vec<Case> {
    let mut kept: Vec<Case> = Vec::new();
    let mut open = quotas.to_vec();
    while let Some(next) = best(&cases, &kept, &open) {
        let case = cases.remove(next);
        for quota in open.iter_mut().filter(|quota| quota.0 == case.kind) {
            quota.1 -= 1;
        }
        kept.push(case);
    }
    kept
}

fn best(cases: &[Case], kept: &[Case], open: &[Quota]) -> Option<usize> {
    let counts = counts(kept);
    let worth = |case: &Case| -> f64 {
        let changed = case.changed.iter().zip(&counts).filter(|(changed, _)| **changed);
        changed.map(|(_, &count)| 1.0 / ((1 + count) * (1 + count)) as f64).sum()
    };
    let mut best: Option<(usize, f64)> = None;
    for (place, case) in cases.iter().enumerate() {
        let is_wanted = open.iter().any(|&(kind, left)| kind == case.kind && left > 0);
        let worth = worth(case);
        if is_wanted && best.is_none_or(|(_, most)| worth > most) {
            best = Some((place, worth));
        }
    }
    best.map(|(place, _)| place)
}

/// How many cases each slip changes.
fn counts(cases: &[Case]) -> Vec<usize> {
    (0..ALL.len()).map(|slip| cases.iter().filter(|case| case.changed[slip]).count()).collect()
}
