//! Answers as text: the desk's lines, and plain words.

use ularimpong::{Outcome, Refusal, Report, Sheet};

/// The desk's lines.
pub fn lines(sheet: &Sheet, report: &Report) -> String {
    let (word, values) = match &report.outcome {
        Outcome::None => ("NONE", &[][..]),
        Outcome::Found(frame) => ("FOUND", &frame[..]),
        Outcome::Stopped(floor) => ("STOP", &floor[..]),
    };
    let first = format!("{word} {}\n", report.sweeps);
    sheet.named(values).fold(first, |text, (name, value)| text + &format!("{name} {value}\n"))
}

pub fn refused(refusal: &Refusal) -> String {
    format!("REFUSED {} {}\n", refusal.ground.number(), refusal.line)
}

pub fn words(sheet: &Sheet, report: &Report) -> String {
    let sweeps = counted(report.sweeps);
    match &report.outcome {
        Outcome::None => format!("No frame meets everything. That took {sweeps}.\n"),
        Outcome::Found(frame) => {
            let first = format!("The smallest frame that meets everything, after {sweeps}:\n");
            first + &values(sheet, frame)
        }
        Outcome::Stopped(floor) => {
            let first = format!(
                "Stopped: the budget of {sweeps} is used up. \
                 No frame before these values meets everything:\n"
            );
            first + &values(sheet, floor)
        }
    }
}

pub fn counted(sweeps: usize) -> String {
    let plural = if sweeps == 1 { "" } else { "s" };
    format!("{sweeps} sweep{plural}")
}

fn values(sheet: &Sheet, point: &[i64]) -> String {
    sheet.named(point).map(|(name, value)| format!("  {name} = {value}\n")).collect()
}
