//! Sheets that were accepted.

use crate::calls::{self, Counts};
use crate::problem::{Problem, Report};
use crate::refusal::Refusal;

/// The bytes that a name takes in the library's list.
const NAME_BYTES: usize = 8;

/// An accepted sheet: its problem, and the names of the declared quantities,
/// which are the problem's first ones and lead it.
#[derive(Clone, Debug, PartialEq, Eq, Hash)]
pub struct Sheet {
    problem: Problem,
    names: Vec<String>,
}

impl Sheet {
    /// Translates a sheet's text.
    pub fn read(text: &[u8]) -> Result<Sheet, Refusal> {
        let mut problem = Problem {
            ranges: vec![0; calls::FULL_RANGES],
            primitives: vec![0; calls::FULL_PRIMITIVES],
            lengths: vec![0; calls::FULL_LENGTHS],
            literals: vec![0; calls::FULL_LITERALS],
            leading: None,
        };
        let mut names = vec![0; calls::FULL_NAMES];
        let counts = calls::translate(
            text,
            &mut problem.ranges,
            &mut problem.primitives,
            &mut problem.lengths,
            &mut problem.literals,
            &mut names,
        )
        .map_err(|fault| Refusal::of_sheet(text, fault))?;
        keep_fronts(&mut problem, counts);
        let names = names.chunks(NAME_BYTES).take(counts.declared).map(unpadded).collect();
        Ok(Sheet { problem, names })
    }

    pub fn problem(&self) -> &Problem {
        &self.problem
    }

    /// The declared names, in order.
    pub fn names(&self) -> &[String] {
        &self.names
    }

    /// The declared names with their values at a point of the problem.
    pub fn named<'a>(&'a self, point: &'a [i64]) -> impl Iterator<Item = (&'a str, i64)> {
        self.names.iter().map(String::as_str).zip(point.iter().copied())
    }

    /// Searches with at most `budget` sweeps and as much room as is needed.
    pub fn solve(&self, budget: i64) -> Result<Report, Refusal> {
        self.problem.solve(budget)
    }
}

/// Leaves of each list what the sheet filled. The declared quantities lead.
fn keep_fronts(problem: &mut Problem, counts: Counts) {
    problem.ranges.truncate(2 * counts.quantities);
    problem.primitives.truncate(4 * counts.primitives);
    problem.lengths.truncate(counts.clauses);
    problem.literals.truncate(3 * counts.literals);
    problem.leading = Some(counts.declared as i64);
}

fn unpadded(name: &[u8]) -> String {
    String::from_utf8_lossy(name).trim_end_matches(' ').to_string()
}
