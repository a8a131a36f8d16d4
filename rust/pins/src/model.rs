//! The documents' narrowing and search with slips as switches: slow, plain, and
//! with no slip the same as the `paper` crate.

use std::collections::VecDeque;

use brute::plain::Outcome;
use brute::problems::Problem;

use crate::slip::Slip;

type Range = (i128, i128);
type Ranges = Vec<Range>;

/// Beyond every end.
const FAR: i128 = 1 << 100;

/// What a search comes to, and the sweeps it used.
pub fn run(problem: &Problem, budget: i64, slip: Slip) -> (Outcome, i64) {
    let mut current: Ranges =
        problem.ranges.chunks(2).map(|range| (range[0].into(), range[1].into())).collect();
    let mut waiting: VecDeque<Ranges> = VecDeque::new();
    for sweeps in 1..=budget {
        let swept = sweep(problem, &current, slip);
        let next = match &swept {
            None => taken(&mut waiting, slip).ok_or(Outcome::None),
            Some(swept) => step(swept, &mut waiting, slip),
        };
        match next {
            Ok(next) => current = next,
            Err(_) if slip == Slip::LastSweepStops && sweeps == budget => break,
            Err(outcome) => return (outcome, sweeps),
        }
    }
    (Outcome::Stopped(lows(&current)), budget)
}

/// The waiting box that is next.
fn taken(waiting: &mut VecDeque<Ranges>, slip: Slip) -> Option<Ranges> {
    match slip {
        Slip::OldestFirst => waiting.pop_front(),
        _ => waiting.pop_back(),
    }
}

/// The box to go on with after a sweep that left something, or the point found.
fn step(swept: &Frame, waiting: &mut VecDeque<Ranges>, slip: Slip) -> Result<Ranges, Outcome> {
    let ranges = &swept.ranges;
    let is_open = |range: &Range| range.0 < range.1;
    let open = match slip {
        Slip::LastOpenFirst => ranges.iter().rposition(is_open),
        _ => ranges.iter().position(is_open),
    };
    match open {
        None if !swept.changed || slip == Slip::FoundAtOnce => Err(Outcome::Found(lows(ranges))),
        Some(open) if !swept.changed => {
            let (kept, stored) = halves(ranges, open, slip);
            waiting.push_back(stored);
            Ok(kept)
        }
        _ => Ok(ranges.clone()),
    }
}

/// The half to go on with and the half that waits.
fn halves(ranges: &Ranges, open: usize, slip: Slip) -> (Ranges, Ranges) {
    let sum = ranges[open].0 + ranges[open].1;
    let middle = if slip == Slip::HalvesTowardsZero { sum / 2 } else { sum.div_euclid(2) };
    let (mut lower, mut upper) = (ranges.clone(), ranges.clone());
    lower[open].1 = middle;
    upper[open].0 = middle + 1;
    match slip {
        Slip::UpperFirst => (upper, lower),
        _ => (lower, upper),
    }
}

fn lows(ranges: &Ranges) -> Vec<i64> {
    ranges.iter().map(|range| range.0 as i64).collect()
}

/// A box after a sweep; None if a range ran empty.
fn sweep(problem: &Problem, start: &Ranges, slip: Slip) -> Option<Frame> {
    let mut frame = Frame { ranges: start.clone(), changed: false, slip };
    let primitives = problem.primitives.chunks(4).map(Constraint::Primitive);
    let clauses = clauses(problem).into_iter().map(Constraint::Clause);
    let constraints: Vec<Constraint> = match slip {
        Slip::ClausesFirst => clauses.chain(primitives).collect(),
        _ => primitives.chain(clauses).collect(),
    };
    for constraint in constraints {
        if slip == Slip::FromTheStart {
            let mut alone = Frame { ranges: start.clone(), changed: false, slip };
            alone.narrow(constraint)?;
            for (quantity, range) in alone.ranges.into_iter().enumerate() {
                frame.meet(quantity, range)?;
            }
        } else {
            frame.narrow(constraint)?;
        }
    }
    Some(frame)
}

/// The literals of each clause.
fn clauses(problem: &Problem) -> Vec<&[i64]> {
    let mut rest = &problem.literals[..];
    let mut clauses = Vec::new();
    for &length in &problem.lengths {
        let (own, behind) = rest.split_at(3 * length as usize);
        clauses.push(own);
        rest = behind;
    }
    clauses
}

/// A constraint's numbers.
#[derive(Clone, Copy)]
enum Constraint<'a> {
    Primitive(&'a [i64]),
    Clause(&'a [i64]),
}

/// The box in a sweep, and whether a cut changed it. Every cut gives None if
/// the range is empty then.
struct Frame {
    ranges: Ranges,
    changed: bool,
    slip: Slip,
}

impl Frame {
    fn narrow(&mut self, constraint: Constraint) -> Option<()> {
        match constraint {
            Constraint::Clause(literals) => self.clause(literals),
            Constraint::Primitive(p) => {
                let (z, x, y) = (p[1] as usize, p[2] as usize, p[3] as usize);
                match p[0] {
                    1 => self.sum(z, x, y),
                    2 => self.product(z, x, y),
                    _ => self.square(z, x),
                }
            }
        }
    }

    fn meet(&mut self, quantity: usize, (low, high): Range) -> Option<()> {
        let range = &mut self.ranges[quantity];
        let before = *range;
        *range = (range.0.max(low), range.1.min(high));
        self.changed |= *range != before;
        (range.0 <= range.1).then_some(())
    }

    /// Cuts a range to what the ranges of the box make.
    fn cut(&mut self, quantity: usize, made: impl Fn(&Ranges) -> Range) -> Option<()> {
        if self.slip == Slip::EndByEnd {
            let low = made(&self.ranges).0;
            self.meet(quantity, (low, FAR))?;
            let high = made(&self.ranges).1;
            return self.meet(quantity, (-FAR, high));
        }
        let range = made(&self.ranges);
        self.meet(quantity, range)
    }

    fn sum(&mut self, z: usize, x: usize, y: usize) -> Option<()> {
        self.cut(z, |r| (r[x].0 + r[y].0, r[x].1 + r[y].1))?;
        for (one, other) in operands(x, y, self.slip == Slip::SumSecondFirst) {
            self.cut(one, |r| (r[z].0 - r[other].1, r[z].1 - r[other].0))?;
        }
        Some(())
    }

    fn product(&mut self, z: usize, x: usize, y: usize) -> Option<()> {
        let slip = self.slip;
        self.cut(z, |r| end_products(r[x], r[y], slip))?;
        let operands = operands(x, y, slip == Slip::ProductSecondFirst);
        for ((one, by), is_first) in operands.into_iter().zip([true, false]) {
            if trims(self.ranges[z], is_first, slip) {
                self.trim(by)?;
            }
            if divides(divisors(self.ranges[by], self.ranges[z], slip), slip) {
                self.cut(one, |r| quotients(r[z], divisors(r[by], r[z], slip), slip))?;
            }
        }
        Some(())
    }

    /// Takes a 0 at its end from a divisor's range.
    fn trim(&mut self, by: usize) -> Option<()> {
        let changed = self.changed;
        if self.ranges[by] == (0, 0) && self.slip == Slip::TrimSparesZero {
            return Some(());
        }
        self.meet(by, without_end_zero(self.ranges[by]))?;
        if self.slip == Slip::TrimUncounted {
            self.changed = changed;
        }
        Some(())
    }

    fn square(&mut self, z: usize, x: usize) -> Option<()> {
        let slip = self.slip;
        self.cut(z, |r| squares(r[x], slip))?;
        self.cut(x, |r| {
            let root = root_down(r[z].1);
            let is_exact = root * root == r[z].1 || slip != Slip::RootsOutward;
            let reach = if is_exact { root } else { root + 1 };
            (-reach, reach)
        })?;
        let least = |r: &Ranges| {
            let root = root_down(r[z].0);
            if root * root == r[z].0 || slip == Slip::RootsOutward {
                root
            } else {
                root + 1
            }
        };
        if self.ranges[x].0 >= 0 && slip != Slip::NoRaising {
            self.cut(x, |r| (least(r), r[x].1))?;
        }
        if self.ranges[x].1 <= 0 && slip != Slip::NoLowering {
            self.cut(x, |r| (r[x].0, -least(r)))?;
        }
        Some(())
    }

    fn clause(&mut self, literals: &[i64]) -> Option<()> {
        let literals: Vec<&[i64]> = literals.chunks(3).collect();
        let mut standing: Vec<&[i64]> =
            literals.iter().copied().filter(|literal| !self.is_false(literal)).collect();
        match self.slip {
            Slip::RepeatedLiteral => {
                standing.sort_unstable();
                standing.dedup();
            }
            Slip::NeverUnit if literals.len() > 1 && !standing.is_empty() => return Some(()),
            Slip::UnitThoughUndecided if standing.iter().skip(1).all(|l| !self.is_true(l)) => {
                standing.truncate(1);
            }
            _ => {}
        }
        match standing[..] {
            [] => None,
            [literal] => self.meet(literal[0] as usize, meeting(literal)),
            _ => Some(()),
        }
    }

    fn is_false(&self, literal: &[i64]) -> bool {
        let ((low, high), range) = (meeting(literal), self.ranges[literal[0] as usize]);
        range.0 > high || range.1 < low
    }

    fn is_true(&self, literal: &[i64]) -> bool {
        let ((low, high), range) = (meeting(literal), self.ranges[literal[0] as usize]);
        low <= range.0 && range.1 <= high
    }
}

/// The values that meet a literal.
fn meeting(literal: &[i64]) -> Range {
    match literal[1] {
        0 => (-FAR, literal[2].into()),
        _ => (literal[2].into(), FAR),
    }
}

/// Each operand with the other one, in the order in which they are cut.
fn operands(x: usize, y: usize, turned: bool) -> [(usize, usize); 2] {
    if turned {
        [(y, x), (x, y)]
    } else {
        [(x, y), (y, x)]
    }
}

/// The four pairs of ends.
fn four(a: Range, b: Range) -> [Range; 4] {
    [(a.0, b.0), (a.0, b.1), (a.1, b.0), (a.1, b.1)]
}

fn end_products(x: Range, y: Range, slip: Slip) -> Range {
    let mut products = four(x, y).map(|(a, b)| a * b);
    if slip == Slip::WrappedProducts {
        products = products.map(|product| i128::from(product as i64));
    }
    products.sort_unstable();
    (products[0], products[3])
}

/// Whether a divisor's range is trimmed before the first or the second division.
fn trims(z: Range, is_first: bool, slip: Slip) -> bool {
    match slip {
        Slip::NoTrim | Slip::TrimForgotten => false,
        Slip::FirstTrimOnly => is_first && !holds_zero(z),
        Slip::TrimsThoughZero => true,
        _ => !holds_zero(z),
    }
}

fn holds_zero(range: Range) -> bool {
    range.0 <= 0 && 0 <= range.1
}

/// A range without a 0 at its end; empty for [0, 0].
fn without_end_zero((low, high): Range) -> Range {
    (if low == 0 { 1 } else { low }, if high == 0 { -1 } else { high })
}

/// Whether a range may be divided by.
fn divides(by: Range, slip: Slip) -> bool {
    match slip {
        Slip::NoNegativeDivisor => by.0 > 0,
        _ => by.0 <= by.1 && !holds_zero(by),
    }
}

/// The range that is divided by.
fn divisors(by: Range, z: Range, slip: Slip) -> Range {
    match slip {
        Slip::DividesByEdgeZero => without_end_zero(by),
        Slip::TrimForgotten if !holds_zero(z) => without_end_zero(by),
        _ => by,
    }
}

/// The least of the four exact quotients rounded up, the greatest rounded down.
/// Rounding keeps the order, so the rounded ones are compared.
fn quotients(z: Range, by: Range, slip: Slip) -> Range {
    let up = |(a, b): Range| if slip == Slip::TowardsZero { a / b } else { -floor(-a, b) };
    let down = |(a, b): Range| if slip == Slip::TowardsZero { a / b } else { floor(a, b) };
    let fractions = four(z, by);
    let least = fractions.map(up).into_iter().fold(FAR, i128::min);
    let greatest = fractions.map(down).into_iter().fold(-FAR, i128::max);
    (least, greatest)
}

/// A quotient rounded towards minus infinity.
fn floor(a: i128, b: i128) -> i128 {
    if b < 0 {
        (-a).div_euclid(-b)
    } else {
        a.div_euclid(b)
    }
}

fn squares(x: Range, slip: Slip) -> Range {
    let (a, b) = (x.0 * x.0, x.1 * x.1);
    let is_zero_least = holds_zero(x) && slip != Slip::SquareWithoutZero;
    (if is_zero_least { 0 } else { a.min(b) }, a.max(b))
}

/// The root rounded down, by halving an interval that holds it.
fn root_down(value: i128) -> i128 {
    let (mut low, mut high) = (0, 1 << 41);
    while high - low > 1 {
        let middle = (low + high) / 2;
        if middle * middle <= value {
            low = middle;
        } else {
            high = middle;
        }
    }
    low
}
