//! Answers a sheet with the proved library, as the desk program does or in
//! plain words.

#![deny(unsafe_code)]

#[allow(unsafe_code)]
mod interrupt;
mod longer;
mod options;
mod print;
mod progress;

use std::fs::File;
use std::io::{self, Read, Write};
use std::process::ExitCode;

use options::{Command, Options};
use ularimpong::{Refusal, Report, Sheet, DESK_BUDGET, DESK_ROOM, MOST_BUDGET, MOST_BYTES};

const ANSWERED: u8 = 0;
const REFUSED: u8 = 1;
const FAILED: u8 = 2;

fn main() -> ExitCode {
    let status = match options::parse(std::env::args_os().skip(1)) {
        Err(fault) => fail(&format!("{fault}\n{}", options::USAGE)),
        Ok(Command::Help) => write_out(options::HELP.as_bytes(), ANSWERED),
        Ok(Command::Answer(options)) => match read_sheet(&options) {
            Err(error) => fail(&error),
            Ok(text) => answer(&options, &text),
        },
    };
    ExitCode::from(status)
}

/// One byte more than a sheet may have is enough to see that it is too long.
fn read_sheet(options: &Options) -> Result<Vec<u8>, String> {
    let most = MOST_BYTES as u64 + 1;
    let mut text = Vec::new();
    let read = match &options.file {
        None => io::stdin().take(most).read_to_end(&mut text),
        Some(path) => File::open(path).and_then(|file| file.take(most).read_to_end(&mut text)),
    };
    let name = options.file.as_ref().map_or("standard input".into(), |path| path.to_string_lossy());
    read.map(|_| text).map_err(|error| format!("{name}: {error}"))
}

fn answer(options: &Options, text: &[u8]) -> u8 {
    if options.as_the_desk() {
        return as_the_desk(text);
    }
    let outcome = Sheet::read(text).and_then(|sheet| {
        let report = solve(options, &sheet)?;
        Ok((sheet, report))
    });
    let (output, status) = match outcome {
        Ok((sheet, report)) => (printed(options, &sheet, &report), ANSWERED),
        Err(refusal) if options.words => (format!("{refusal}\n"), REFUSED),
        Err(refusal) => (print::refused(&refusal), REFUSED),
    };
    write_out(output.as_bytes(), status)
}

/// The desk's own output is proved to the byte, so it is printed as it comes.
fn as_the_desk(text: &[u8]) -> u8 {
    let output = ularimpong::answer(text);
    let status = if output.starts_with(b"REFUSED") { REFUSED } else { ANSWERED };
    write_out(&output, status)
}

/// With a budget of one's own, or in stages, there is as much room as the
/// sheet needs; otherwise budget and room are the desk's.
fn solve(options: &Options, sheet: &Sheet) -> Result<Report, Refusal> {
    match options.budget {
        _ if options.longer => {
            let most = options.budget.unwrap_or(MOST_BUDGET);
            longer::solve(sheet, most, |report| printed(options, sheet, report))
        }
        Some(budget) => sheet.solve(budget),
        None => sheet.problem().solve_within(DESK_BUDGET, DESK_ROOM),
    }
}

fn printed(options: &Options, sheet: &Sheet, report: &Report) -> String {
    if options.words {
        print::words(sheet, report)
    } else {
        print::lines(sheet, report)
    }
}

fn write_out(output: &[u8], status: u8) -> u8 {
    match io::stdout().write_all(output) {
        Ok(()) => status,
        Err(error) => fail(&format!("standard output: {error}")),
    }
}

/// Says what went wrong. If even that can't be written, the status tells.
fn fail(message: &str) -> u8 {
    let _ = writeln!(io::stderr(), "rul: {message}");
    FAILED
}
