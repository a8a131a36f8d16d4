//! Draws small problems and sheets from seeds and keeps some hundred of each,
//! with the answers, counts and lists of the `paper` crate, so that each slip that can
//! show at all changes several of them. Prints how many cases each slip
//! changes.
//!
//! `pins` compares with the stored data files and ends with status 1 if they
//! differ; `pins write` writes them.

mod case;
mod choice;
mod ground;
mod model;
mod short;
mod slip;
mod translation;

use std::io;
use std::process::ExitCode;

use case::{Kind, Lists};
use slip::ALL;

const PROBLEMS: &str = concat!(env!("CARGO_MANIFEST_DIR"), "/../../crates/trials/data/pins.txt");
const SHEETS: &str = concat!(env!("CARGO_MANIFEST_DIR"), "/../../crates/examples/data/pins.txt");
const LISTS: &str = concat!(env!("CARGO_MANIFEST_DIR"), "/../../crates/refusals/data/pins.txt");

/// The gate reads no more of a file.
const MOST_BYTES: usize = 65_536;

/// How many seeds are tried for each.
const SEEDS: u64 = 40_000;

fn main() -> io::Result<ExitCode> {
    let is_writing = std::env::args().nth(1).is_some_and(|argument| argument == "write");
    let problems = choice::keep(
        (0..SEEDS).filter_map(case::problem).collect(),
        &[(Kind::None, 26), (Kind::Found, 32), (Kind::Stopped, 30), (Kind::Refused(8), 12)],
    );
    let sheets = choice::keep(
        (0..SEEDS).filter_map(case::sheet).collect(),
        &[(Kind::None, 41), (Kind::Found, 49), (Kind::Refused(22), 6), (Kind::Refused(28), 4)],
    );
    let lists: Vec<&Lists> = sheets.iter().filter_map(|case| case.lists.as_ref()).collect();
    print_table(&[
        ("problems", problems.iter().map(|case| &case.changed).collect()),
        ("sheets", sheets.iter().map(|case| &case.changed).collect()),
        ("lists", lists.iter().map(|lists| &lists.changed).collect()),
    ]);
    let is_alike = hold(PROBLEMS, problems.iter().map(|case| &case.line), is_writing)?
        & hold(SHEETS, sheets.iter().map(|case| &case.line), is_writing)?
        & hold(LISTS, lists.iter().map(|lists| &lists.line), is_writing)?;
    println!("the stored cases {}", if is_alike { "are these" } else { "are others" });
    Ok(if is_alike { ExitCode::SUCCESS } else { ExitCode::FAILURE })
}

/// Writes the lines to a file, if asked, and gives whether it has them.
fn hold<'a>(
    path: &str,
    lines: impl Iterator<Item = &'a String>,
    is_writing: bool,
) -> io::Result<bool> {
    let text: String = lines.map(|line| line.clone() + "\n").collect();
    assert!(text.len() <= MOST_BYTES, "{path} is too long to be read");
    if is_writing {
        std::fs::write(path, &text)?;
    }
    Ok(std::fs::read(path)? == text.as_bytes())
}

/// A name for some cases, and for each case what each slip changes.
type Column<'a> = (&'a str, Vec<&'a Vec<bool>>);

/// Prints how many cases of each column each slip changes.
fn print_table(columns: &[Column]) {
    let heads = columns.iter().map(|(name, cases)| format!(" {name}, of {} |", cases.len()));
    println!("| slip |{}", heads.collect::<String>());
    println!("|---|{}", "---|".repeat(columns.len()));
    for (slip, (_, what)) in ALL.iter().enumerate() {
        let counts = columns.iter().map(|(_, cases)| {
            format!(" {} |", cases.iter().filter(|changed| changed[slip]).count())
        });
        println!("| {what} |{}", counts.collect::<String>());
    }
}
