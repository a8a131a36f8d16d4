//! Problems that the smaller generators don't reach: lists up to their full
//! sizes, and searches with many splits.

use brute::problems::{notable, sound_leading, Problem};
use brute::random::Random;
use brute::M;

/// A problem with up to 128 quantities, 256 primitives, 256 clauses and 1,024
/// literals, often exactly so many.
pub fn full(random: &mut Random) -> Problem {
    let n = near(random, 128).max(3);
    let mut problem = Problem::default();
    let is_wide = random.once_in(4);
    for _ in 0..n {
        let (a, b) = if is_wide {
            (notable(random), notable(random))
        } else {
            let low = random.between(-60, 40);
            (low, low + random.between(0, 80))
        };
        problem.ranges.extend([a.min(b), a.max(b)]);
    }
    let count = near(random, 256);
    if random.once_in(4) {
        for _ in 0..count {
            add_primitive(random, &mut problem);
        }
    } else {
        add_ladder(random, &mut problem, count);
    }
    let mut left = near(random, 1_024);
    for _ in 0..near(random, 256) {
        // An empty clause would end every search in its first sweep.
        let length = (1 + random.below(8) + random.below(2)).min(left);
        if length > 0 {
            left -= length;
            add_clause(random, &mut problem, length);
        }
    }
    problem.leading = sound_leading(random, &problem);
    problem
}

/// Equations that have a solution for nearly all values of the first two
/// quantities: each later one is made of two before it, and its range has room
/// for that. When all are made, they are repeated.
fn add_ladder(random: &mut Random, problem: &mut Problem, count: usize) {
    let steps = problem.n() - 2;
    for step in 0..count.min(steps) {
        let z = step as i64 + 2;
        let kind = random.between(1, 3);
        let (x, y) = (random.below(step + 2) as i64, random.below(step + 2) as i64);
        let y = if kind == 3 { 0 } else { y };
        problem.primitives.extend([kind, z, x, y]);
        make_room(problem, kind, z, x, if kind == 3 { x } else { y });
    }
    let repeated = (4 * count).saturating_sub(problem.primitives.len());
    let more: Vec<i64> = problem.primitives.iter().copied().cycle().take(repeated).collect();
    problem.primitives.extend(more);
}

/// Gives z a range that holds every sum or product of x and y, within M.
fn make_room(problem: &mut Problem, kind: i64, z: i64, x: i64, y: i64) {
    let ends = |quantity: i64| {
        let low = 2 * quantity as usize;
        [i128::from(problem.ranges[low]), i128::from(problem.ranges[low + 1])]
    };
    let value = |a: i128, b: i128| if kind == 1 { a + b } else { a * b };
    let ([xl, xh], [yl, yh]) = (ends(x), ends(y));
    let values = [value(xl, yl), value(xl, yh), value(xh, yl), value(xh, yh)];
    let bounded = values.map(|end| end.clamp(-i128::from(M), i128::from(M)) as i64);
    let low = bounded.into_iter().fold(M, i64::min);
    let high = bounded.into_iter().fold(-M, i64::max);
    let place = 2 * z as usize;
    problem.ranges[place..place + 2].copy_from_slice(&[low, high]);
}

/// A number up to `most`, often `most` itself.
fn near(random: &mut Random, most: usize) -> usize {
    match random.below(3) {
        0 => most,
        1 => random.below(most + 1),
        _ => random.below(most / 8),
    }
}

fn add_primitive(random: &mut Random, problem: &mut Problem) {
    let n = problem.n();
    let kind = random.between(1, 3);
    let mut any = || random.below(n) as i64;
    let (z, x, y) = (any(), any(), any());
    problem.primitives.extend([kind, z, x, if kind == 3 { 0 } else { y }]);
}

fn add_clause(random: &mut Random, problem: &mut Problem, length: usize) {
    problem.lengths.push(length as i64);
    for _ in 0..length {
        let quantity = random.below(problem.n());
        // Mostly a bound within the range, so that clauses stay undecided.
        let (low, high) = (problem.ranges[2 * quantity], problem.ranges[2 * quantity + 1]);
        let bound = random.between(low, high);
        problem.literals.extend([quantity as i64, random.between(0, 1), bound]);
    }
}

/// Few quantities with many values each, under few constraints: the search has
/// to split and to come back often.
pub fn long_search(random: &mut Random) -> Problem {
    let n = 3 + random.below(6);
    let mut problem = Problem::default();
    for _ in 0..n {
        let low = random.between(-300, 300);
        problem.ranges.extend([low, low + random.between(0, 400)]);
    }
    for _ in 0..1 + random.below(4) {
        add_primitive(random, &mut problem);
    }
    for _ in 0..random.below(4) {
        let length = 2 + random.below(3);
        add_clause(random, &mut problem, length);
    }
    problem.leading = sound_leading(random, &problem);
    problem
}
