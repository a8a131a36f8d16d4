//! Problems with owned lists.

use crate::calls::{self, Answer};
use crate::refusal::Refusal;

const MOST_QUANTITIES: usize = 128;

/// The four lists of a problem, as document 01 lays them out, and its leading
/// number. Any numbers may stand in them; a solve says what is wrong with them.
#[derive(Clone, Debug, Default, PartialEq, Eq, Hash)]
pub struct Problem {
    pub ranges: Vec<i64>,
    pub primitives: Vec<i64>,
    pub lengths: Vec<i64>,
    pub literals: Vec<i64>,
    /// How many quantities lead; all of them for `None`. Each later one must be
    /// one value, or the result of a primitive over lower-numbered ones, and
    /// then its range takes no room.
    pub leading: Option<i64>,
}

/// What a search came to. Points and floors have a value for each quantity.
#[derive(Clone, Debug, PartialEq, Eq, Hash)]
pub enum Outcome {
    /// No point satisfies the problem.
    None,
    /// The smallest point that does.
    Found(Vec<i64>),
    /// The budget was used up; no point that comes before these values does.
    Stopped(Vec<i64>),
}

/// The outcome, and the number of sweeps used.
#[derive(Clone, Debug, PartialEq, Eq, Hash)]
pub struct Report {
    pub outcome: Outcome,
    pub sweeps: usize,
}

impl Problem {
    /// n, the number of quantities.
    pub fn quantities(&self) -> usize {
        self.ranges.len() / 2
    }

    /// How many quantities lead.
    pub fn leading(&self) -> i64 {
        self.leading.unwrap_or(self.quantities() as i64)
    }

    /// The workspace that a search needs, 2n(D+1) numbers, D being the halvings
    /// of the leading ranges. It is 0 for more quantities than a problem may
    /// have.
    pub fn room(&self) -> usize {
        if self.quantities() > MOST_QUANTITIES {
            return 0;
        }
        let leading = usize::try_from(self.leading()).unwrap_or(0);
        let depth: usize = self.ranges.chunks_exact(2).take(leading).map(halvings).sum();
        2 * self.quantities() * (depth + 1)
    }

    /// Searches with at most `budget` sweeps and as much room as is needed.
    pub fn solve(&self, budget: i64) -> Result<Report, Refusal> {
        self.solve_within(budget, self.room())
    }

    /// Searches with at most `budget` sweeps and a workspace of `room` numbers.
    pub fn solve_within(&self, budget: i64, room: usize) -> Result<Report, Refusal> {
        let mut point = vec![0; self.quantities().min(MOST_QUANTITIES)];
        // More room than is needed changes nothing.
        let mut work = vec![0; room.min(self.room())];
        let solved = calls::solve(
            &self.ranges,
            &self.primitives,
            &self.lengths,
            &self.literals,
            self.leading(),
            budget,
            &mut point,
            &mut work,
        );
        let outcome = match solved.answer.map_err(Refusal::of_problem)? {
            Answer::None => Outcome::None,
            Answer::Found => Outcome::Found(point),
            Answer::Stopped => Outcome::Stopped(point),
        };
        Ok(Report { outcome, sweeps: solved.sweeps })
    }
}

/// The least k with 2^k at least the number of values of a range: the bit
/// length of high - low.
fn halvings(range: &[i64]) -> usize {
    match range {
        [low, high] => (u64::BITS - high.abs_diff(*low).leading_zeros()) as usize,
        _ => 0,
    }
}
