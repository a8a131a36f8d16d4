//! Grounds 8 and 7 of a solve, with slips as switches.

use brute::problems::Problem;

use crate::slip::Slip;

/// The refusal of a problem that grounds 1 to 6 let through, with its point
/// buffer right and so many numbers of workspace lent.
pub fn refusal(problem: &Problem, lent: usize, slip: Slip) -> Option<u8> {
    let leads_badly = is_leading_bad(problem, slip).then_some(8);
    let is_short = (lent < need(problem, slip)).then_some(7);
    match slip {
        Slip::RoomFirst => is_short.or(leads_badly),
        _ => leads_badly.or(is_short),
    }
}

/// The workspace needed.
pub fn need(problem: &Problem, slip: Slip) -> usize {
    let counted = match slip {
        Slip::DepthOverAll => problem.n(),
        _ => problem.leading.max(0) as usize,
    };
    let halvings = |range: &[i64]| {
        let values = i128::from(range[1]) - i128::from(range[0]) + 1;
        (0..100).find(|&k| 1i128 << k >= values).unwrap_or(100)
    };
    let depth: usize = problem.ranges.chunks(2).take(counted).map(halvings).sum();
    2 * problem.n() * (depth + 1)
}

fn is_leading_bad(problem: &Problem, slip: Slip) -> bool {
    let n = problem.n() as i64;
    let is_open = |later: i64| {
        let place = 2 * later as usize;
        problem.ranges[place] != problem.ranges[place + 1]
            && !problem.primitives.chunks(4).any(|p| defines(p, later, slip))
    };
    problem.leading < 1 || problem.leading > n || (problem.leading..n).any(is_open)
}

/// Whether a primitive defines a quantity.
fn defines(p: &[i64], quantity: i64, slip: Slip) -> bool {
    let (kind, z, x, y) = (p[0], p[1], p[2], p[3]);
    let of_both = |result: i64, others: &[i64]| {
        let fits = |other: i64| match slip {
            Slip::EqualDefines => other <= quantity,
            Slip::HigherDefines => other != quantity,
            _ => other < quantity,
        };
        result == quantity && others.iter().all(|&other| fits(other))
    };
    let by_operand = match kind {
        1 => slip != Slip::OnlyZDefines,
        2 => slip == Slip::FactorDefines,
        _ => false,
    };
    match kind {
        3 => of_both(z, &[x]),
        _ => of_both(z, &[x, y]) || by_operand && (of_both(x, &[z, y]) || of_both(y, &[z, x])),
    }
}
