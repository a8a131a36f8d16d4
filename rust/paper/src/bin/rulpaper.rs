//! The desk program: a sheet from standard input, its answer to standard
//! output. With `--lists`, the translated lists instead: ranges, primitives,
//! lengths, literals, name bytes, the five counts, D and the workspace need
//! (with the declared quantities leading), one list to a line.

use std::io::{self, Read, Write};

use paper::{
    answer, translate, workspace_need, Translated, FULL_LENGTHS, FULL_LITERALS, FULL_NAMES,
    FULL_PRIMITIVES, FULL_RANGES,
};

/// One byte more than a sheet may have is enough to see that it is too long.
const MOST_READ: u64 = 4_097;

fn main() -> io::Result<()> {
    let as_lists = std::env::args().nth(1).is_some_and(|argument| argument == "--lists");
    let mut sheet = Vec::new();
    io::stdin().take(MOST_READ).read_to_end(&mut sheet)?;
    let output = if as_lists { lists(&sheet) } else { answer(&sheet) };
    io::stdout().write_all(&output)
}

fn lists(sheet: &[u8]) -> Vec<u8> {
    let mut ranges = [0; FULL_RANGES];
    let mut primitives = [0; FULL_PRIMITIVES];
    let mut lengths = [0; FULL_LENGTHS];
    let mut literals = [0; FULL_LITERALS];
    let mut names = [0; FULL_NAMES];
    let translated =
        translate(sheet, &mut ranges, &mut primitives, &mut lengths, &mut literals, &mut names);
    let counts = match translated {
        Translated::Refused { number, line } => {
            return format!("REFUSED {number} {line}\n").into_bytes()
        }
        Translated::Accepted(counts) => counts,
    };
    let ranges = &ranges[..2 * counts.quantities];
    let (depth, need) = workspace_need(ranges, counts.declared as i64);
    let five =
        [counts.quantities, counts.declared, counts.primitives, counts.clauses, counts.literals];
    [
        joined(ranges),
        joined(&primitives[..4 * counts.primitives]),
        joined(&lengths[..counts.clauses]),
        joined(&literals[..3 * counts.literals]),
        joined(&names[..8 * counts.declared]),
        joined(&five),
        joined(&[depth]),
        joined(&[need]),
    ]
    .concat()
    .into_bytes()
}

/// The numbers of a list, one space apart, as a line.
fn joined<T: ToString>(list: &[T]) -> String {
    let words: Vec<String> = list.iter().map(T::to_string).collect();
    words.join(" ") + "\n"
}
