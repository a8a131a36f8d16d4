//! The paper's narrowing and search, word for word and without any haste:
//! exact wide numbers, all four products and quotients, copies of whole boxes.

use crate::problems::Problem;
use crate::M;

/// What a search came to.
#[derive(Clone, Debug, PartialEq, Eq)]
pub enum Outcome {
    None,
    Found(Vec<i64>),
    Stopped(Vec<i64>),
}

/// The outcome, the sweeps used, the most boxes that ever waited, and how many
/// quantities there are up to the last one that was ever split.
#[derive(Clone, Debug, PartialEq, Eq)]
pub struct Run {
    pub outcome: Outcome,
    pub sweeps: i64,
    pub most_waiting: usize,
    pub split: usize,
}

/// The refusal of a solve, if any: each ground in turn, in wide numbers.
pub fn refusal(problem: &Problem, budget: i64, point: usize, work: usize) -> Option<u8> {
    let n = problem.n();
    let is_quantity = |number: i64| number >= 0 && (number as u64) < n as u64;
    let is_beyond = |number: i64| i128::from(number).abs() > i128::from(M);
    let sum: i128 = problem.lengths.iter().map(|&length| i128::from(length)).sum();
    if !problem.ranges.len().is_multiple_of(2) || n == 0 || n > 128 {
        return Some(1);
    }
    if problem.primitives.len() / 4 > 256
        || !problem.primitives.len().is_multiple_of(4)
        || problem.lengths.len() > 256
        || problem.literals.len() > 3 * 1_024
        || problem.lengths.iter().any(|&length| length < 0)
        || 3 * sum != problem.literals.len() as i128
    {
        return Some(2);
    }
    if problem.ranges.chunks(2).any(|r| r[0] > r[1] || is_beyond(r[0]) || is_beyond(r[1])) {
        return Some(3);
    }
    let is_known = |p: &[i64]| match p[0] {
        1 | 2 => is_quantity(p[1]) && is_quantity(p[2]) && is_quantity(p[3]),
        3 => is_quantity(p[1]) && is_quantity(p[2]) && p[3] == 0,
        _ => false,
    };
    if !problem.primitives.chunks(4).all(is_known) {
        return Some(4);
    }
    let is_literal = |l: &[i64]| is_quantity(l[0]) && (l[1] == 0 || l[1] == 1) && !is_beyond(l[2]);
    if !problem.literals.chunks(3).all(is_literal) {
        return Some(5);
    }
    if !(0..=1_000_000_000).contains(&budget) {
        return Some(6);
    }
    if problem.leading < 1
        || i128::from(problem.leading) > n as i128
        || (problem.leading as usize..n).any(|later| !is_defined(problem, later))
    {
        return Some(8);
    }
    (point != n || work < need(problem)).then_some(7)
}

/// Whether a quantity has a one-value range, or is the result of a primitive
/// over lower-numbered ones: z of any kind, or x or y of a sum.
pub fn is_defined(problem: &Problem, quantity: usize) -> bool {
    let q = quantity as i64;
    let is_lower = |others: &[i64]| others.iter().all(|&other| other < q);
    let is_result = |p: &[i64]| {
        let (kind, z, x, y) = (p[0], p[1], p[2], p[3]);
        match kind {
            1 => {
                (z == q && is_lower(&[x, y]))
                    || (x == q && is_lower(&[z, y]))
                    || (y == q && is_lower(&[z, x]))
            }
            2 => z == q && is_lower(&[x, y]),
            _ => z == q && is_lower(&[x]),
        }
    };
    problem.ranges[2 * quantity] == problem.ranges[2 * quantity + 1]
        || problem.primitives.chunks(4).any(is_result)
}

type Range = (i128, i128);
type Ranges = Vec<Range>;

/// The sum over the leading quantities of the least k with 2^k at least the
/// number of values.
pub fn depth(problem: &Problem) -> usize {
    let least = |range: &[i64]| {
        let values = i128::from(range[1]) - i128::from(range[0]) + 1;
        (0..).find(|&k| (1i128 << k) >= values).unwrap_or(0) as usize
    };
    problem.ranges.chunks(2).take(problem.leading.max(0) as usize).map(least).sum()
}

/// The workspace needed: 2n(D+1) numbers.
pub fn need(problem: &Problem) -> usize {
    2 * problem.n() * (depth(problem) + 1)
}

/// Searches a sound problem with at most `budget` sweeps.
pub fn run(problem: &Problem, budget: i64) -> Run {
    let mut current: Ranges =
        problem.ranges.chunks(2).map(|range| (range[0].into(), range[1].into())).collect();
    let mut waiting: Vec<Ranges> = Vec::new();
    let mut most_waiting = 0;
    let mut split = 0;
    let mut sweeps = 0;
    let outcome = loop {
        if sweeps == budget {
            break Outcome::Stopped(lows(&current));
        }
        sweeps += 1;
        let before = current.clone();
        if sweep(problem, &mut current).is_none() {
            match waiting.pop() {
                None => break Outcome::None,
                Some(last) => current = last,
            }
        } else if current == before {
            let Some(open) = current.iter().position(|range| range.0 < range.1) else {
                break Outcome::Found(lows(&current));
            };
            let middle = (current[open].0 + current[open].1).div_euclid(2);
            let mut upper = current.clone();
            upper[open].0 = middle + 1;
            current[open].1 = middle;
            waiting.push(upper);
            most_waiting = most_waiting.max(waiting.len());
            split = split.max(open + 1);
        }
    };
    Run { outcome, sweeps, most_waiting, split }
}

fn lows(ranges: &Ranges) -> Vec<i64> {
    ranges.iter().map(|range| range.0 as i64).collect()
}

/// None as soon as a range is empty.
fn sweep(problem: &Problem, ranges: &mut Ranges) -> Option<()> {
    for p in problem.primitives.chunks(4) {
        let (z, x, y) = (p[1] as usize, p[2] as usize, p[3] as usize);
        match p[0] {
            1 => sum(ranges, z, x, y)?,
            2 => product(ranges, z, x, y)?,
            _ => square(ranges, z, x)?,
        }
    }
    let mut start = 0;
    for &length in &problem.lengths {
        let end = start + 3 * length as usize;
        clause(ranges, &problem.literals[start..end])?;
        start = end;
    }
    Some(())
}

fn cut(ranges: &mut Ranges, quantity: usize, (low, high): Range) -> Option<()> {
    let range = &mut ranges[quantity];
    *range = (range.0.max(low), range.1.min(high));
    (range.0 <= range.1).then_some(())
}

fn sum(r: &mut Ranges, z: usize, x: usize, y: usize) -> Option<()> {
    cut(r, z, (r[x].0 + r[y].0, r[x].1 + r[y].1))?;
    cut(r, x, (r[z].0 - r[y].1, r[z].1 - r[y].0))?;
    cut(r, y, (r[z].0 - r[x].1, r[z].1 - r[x].0))
}

fn product(r: &mut Ranges, z: usize, x: usize, y: usize) -> Option<()> {
    let products = four(r[x], r[y]).map(|(a, b)| a * b);
    let least = products.iter().copied().fold(products[0], i128::min);
    let greatest = products.iter().copied().fold(products[0], i128::max);
    cut(r, z, (least, greatest))?;
    for (target, by) in [(x, y), (y, x)] {
        if !holds_zero(r[z]) {
            r[by] = without_zero_at_an_end(r[by])?;
        }
        if !holds_zero(r[by]) {
            cut(r, target, quotients(r[z], r[by]))?;
        }
    }
    Some(())
}

/// A divisor's range where z is not 0; None if it is empty then.
fn without_zero_at_an_end(range: Range) -> Option<Range> {
    match range {
        (0, 0) => None,
        (0, high) => Some((1, high)),
        (low, 0) => Some((low, -1)),
        other => Some(other),
    }
}

fn holds_zero(range: Range) -> bool {
    range.0 <= 0 && 0 <= range.1
}

/// The four pairs of ends.
fn four(a: Range, b: Range) -> [Range; 4] {
    [(a.0, b.0), (a.0, b.1), (a.1, b.0), (a.1, b.1)]
}

/// The least of the four exact quotients rounded up, the greatest rounded
/// down. A quotient is a fraction with a denominator above 0, and fractions
/// are compared by cross products.
fn quotients(z: Range, by: Range) -> Range {
    let fractions = four(z, by).map(|(a, b)| if b < 0 { (-a, -b) } else { (a, b) });
    let is_less = |a: Range, b: Range| a.0 * b.1 < b.0 * a.1;
    let mut least = fractions[0];
    let mut greatest = fractions[0];
    for fraction in fractions {
        if is_less(fraction, least) {
            least = fraction;
        }
        if is_less(greatest, fraction) {
            greatest = fraction;
        }
    }
    (-(-least.0).div_euclid(least.1), greatest.0.div_euclid(greatest.1))
}

fn square(r: &mut Ranges, z: usize, x: usize) -> Option<()> {
    let (a, b) = (r[x].0 * r[x].0, r[x].1 * r[x].1);
    cut(r, z, (if holds_zero(r[x]) { 0 } else { a.min(b) }, a.max(b)))?;
    let root = root_down(r[z].1);
    cut(r, x, (-root, root))?;
    let down = root_down(r[z].0);
    let up = if down * down == r[z].0 { down } else { down + 1 };
    if r[x].0 >= 0 {
        cut(r, x, (up, r[x].1))?;
    }
    if r[x].1 <= 0 {
        cut(r, x, (r[x].0, -up))?;
    }
    Some(())
}

/// The root rounded down, by halving an interval that holds it.
fn root_down(value: i128) -> i128 {
    let (mut low, mut high) = (0, 1 << 41);
    while high - low > 1 {
        let middle = (low + high) / 2;
        if middle * middle <= value {
            low = middle;
        } else {
            high = middle;
        }
    }
    low
}

fn clause(r: &mut Ranges, literals: &[i64]) -> Option<()> {
    let is_false = |literal: &&[i64]| {
        let range = r[literal[0] as usize];
        match literal[1] {
            0 => range.0 > literal[2].into(),
            _ => range.1 < literal[2].into(),
        }
    };
    let standing: Vec<&[i64]> = literals.chunks(3).filter(|literal| !is_false(literal)).collect();
    match standing[..] {
        [] => None,
        [one] => {
            let quantity = one[0] as usize;
            let (low, high) = r[quantity];
            match one[1] {
                0 => cut(r, quantity, (low, one[2].into())),
                _ => cut(r, quantity, (one[2].into(), high)),
            }
        }
        _ => Some(()),
    }
}
