//! The desk program's answer to a sheet.

use crate::translate::{
    translate, Counts, Translated, FULL_LENGTHS, FULL_LITERALS, FULL_NAMES, FULL_PRIMITIVES,
    FULL_RANGES,
};
use crate::{solve, Answer, MOST_QUANTITIES};

/// The desk's budget of sweeps.
pub const DESK_BUDGET: i64 = 100_000;
/// The desk's workspace, in numbers.
pub const DESK_WORKSPACE: usize = 8_192;

/// Everything the desk program prints for a sheet.
pub fn answer(sheet: &[u8]) -> Vec<u8> {
    let mut ranges = [0; FULL_RANGES];
    let mut primitives = [0; FULL_PRIMITIVES];
    let mut lengths = [0; FULL_LENGTHS];
    let mut literals = [0; FULL_LITERALS];
    let mut names = [0; FULL_NAMES];
    let translated =
        translate(sheet, &mut ranges, &mut primitives, &mut lengths, &mut literals, &mut names);
    let counts = match translated {
        Translated::Refused { number, line } => return refused(number, line),
        Translated::Accepted(counts) => counts,
    };
    let Counts { quantities, declared, primitives: equations, clauses, literals: places } = counts;
    let mut point = [0; MOST_QUANTITIES];
    let mut work = [0; DESK_WORKSPACE];
    let solved = solve(
        &ranges[..2 * quantities],
        &primitives[..4 * equations],
        &lengths[..clauses],
        &literals[..3 * places],
        declared as i64,
        DESK_BUDGET,
        &mut point[..quantities],
        &mut work,
    );
    let values = names.chunks_exact(8).zip(point).take(declared);
    match solved.answer {
        Err(number) => refused(number, 0),
        Ok(Answer::None) => report("NONE", solved.sweeps, values.take(0)),
        Ok(Answer::Found) => report("FOUND", solved.sweeps, values),
        Ok(Answer::Stopped) => report("STOP", solved.sweeps, values),
    }
}

fn refused(number: u8, line: usize) -> Vec<u8> {
    format!("REFUSED {number} {line}\n").into_bytes()
}

fn report<'a>(word: &str, sweeps: i64, values: impl Iterator<Item = (&'a [u8], i64)>) -> Vec<u8> {
    let mut output = format!("{word} {sweeps}\n").into_bytes();
    for (name, value) in values {
        output.extend(name.iter().filter(|&&byte| byte != b' '));
        output.extend(format!(" {value}\n").as_bytes());
    }
    output
}
