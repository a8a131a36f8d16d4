//! Problems, sheets and the desk program, written straight from document 01, with versions, K, M and G, the zero at
//! the end of a divisor's range and leading quantities as document 02 has them.
//!
//! * [`solve`] checks a problem (lists of numbers) and searches it,
//! * [`translate`] turns a sheet (text) into a problem,
//! * [`line_span`] finds one line of a text,
//! * [`answer`] is the whole output of the desk program.
//!
//! No call panics or overflows, whatever it is handed.

#![forbid(unsafe_code)]

mod check;
mod desk;
mod frame;
mod lines;
mod narrow;
mod parse;
mod search;
mod token;
mod translate;

pub use check::workspace_need;
pub use desk::{answer, DESK_BUDGET, DESK_WORKSPACE};
pub use lines::line_span;
pub use search::{solve, Answer, Solved};
pub use translate::{translate, Counts, Translated};
pub use translate::{FULL_LENGTHS, FULL_LITERALS, FULL_NAMES, FULL_PRIMITIVES, FULL_RANGES};

/// The paper's M: no range end, number or bound lies beyond plus or minus M.
pub const M: i64 = 1_000_000_000_000;

/// The most quantities a problem may have.
pub const MOST_QUANTITIES: usize = 128;
