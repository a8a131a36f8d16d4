//! The library's calls over the caller's buffers: what they read, write and
//! leave is exactly what documents 01 and 02 say.

use std::ops::Range;

use crate::ffi;
use crate::ground::Ground;

/// The full sizes of the lists lent to [`translate`].
pub const FULL_RANGES: usize = 256;
pub const FULL_PRIMITIVES: usize = 1_024;
pub const FULL_LENGTHS: usize = 256;
pub const FULL_LITERALS: usize = 3_072;
pub const FULL_NAMES: usize = 1_024;
/// The size of the buffer lent to [`answer`].
pub const OUTPUT: usize = 4_096;

/// What a search can answer.
#[derive(Clone, Copy, Debug, PartialEq, Eq, Hash)]
pub enum Answer {
    None,
    Found,
    Stopped,
}

/// The answer or the ground of the refusal, and the number of sweeps used.
#[derive(Clone, Copy, Debug, PartialEq, Eq, Hash)]
pub struct Solved {
    pub answer: Result<Answer, Ground>,
    pub sweeps: usize,
}

/// How much of each list an accepted sheet fills.
#[derive(Clone, Copy, Debug, Default, PartialEq, Eq, Hash)]
pub struct Counts {
    pub quantities: usize,
    pub declared: usize,
    pub primitives: usize,
    pub clauses: usize,
    pub literals: usize,
}

/// Why and in which line a sheet is refused; line 0 is no line.
#[derive(Clone, Copy, Debug, PartialEq, Eq, Hash)]
pub struct Fault {
    pub ground: Ground,
    pub line: usize,
}

/// Checks a problem, of whose quantities the first `leading` ones lead, and
/// searches it with at most `budget` sweeps.
///
/// Found writes the point, stopped the floor; none leaves `point` alone. A
/// refusal leaves both buffers alone; every other answer clears the needed
/// front of `work` and leaves the rest of it.
pub fn solve(
    ranges: &[i64],
    primitives: &[i64],
    lengths: &[i64],
    literals: &[i64],
    leading: i64,
    budget: i64,
    point: &mut [i64],
    work: &mut [i64],
) -> Solved {
    let numbers = ffi::solve(ranges, primitives, lengths, literals, leading, budget, point, work);
    let answer = match numbers.answer {
        0 => Ok(Answer::None),
        1 => Ok(Answer::Found),
        2 => Ok(Answer::Stopped),
        _ => Err(Ground::from_number(numbers.refusal)),
    };
    Solved { answer, sweeps: numbers.sweeps }
}

/// Translates a sheet. A refusal writes nothing; acceptance fills the front
/// of each list and leaves the rest.
pub fn translate(
    sheet: &[u8],
    ranges: &mut [i64],
    primitives: &mut [i64],
    lengths: &mut [i64],
    literals: &mut [i64],
    names: &mut [u8],
) -> Result<Counts, Fault> {
    let numbers = ffi::translate(sheet, ranges, primitives, lengths, literals, names);
    if numbers.refusal != 0 {
        return Err(Fault { ground: Ground::from_number(numbers.refusal), line: numbers.line });
    }
    Ok(Counts {
        quantities: numbers.quantities,
        declared: numbers.declared,
        primitives: numbers.primitives,
        clauses: numbers.clauses,
        literals: numbers.literals,
    })
}

/// From where to where a line of a text stands, without its LF, the first line
/// being 1. A line that is not there is the empty stretch at the text's end.
pub fn line_span(text: &[u8], line: usize) -> Range<usize> {
    let span = ffi::line_span(text, line);
    span.start..span.end
}

/// Writes what the desk program prints for a sheet to the front of `out`, and
/// gives its length. The rest of `out` is left.
pub fn answer(sheet: &[u8], out: &mut [u8; OUTPUT]) -> usize {
    ffi::answer(sheet, out)
}
