//! A line on standard error for each stage of a longer search.

use std::io::{self, IsTerminal, Write};
use std::time::Duration;

use crate::print::counted;
use ularimpong::{Outcome, Report, Sheet};

/// A longer line would wrap on a usual terminal, and then can't be rewritten in place.
const TERMINAL_COLUMNS: usize = 79;

pub struct Progress {
    in_place: bool,
}

impl Progress {
    pub fn new() -> Progress {
        Progress { in_place: io::stderr().is_terminal() }
    }

    /// Shows a stage. If that can't be written, the answer still can.
    pub fn show(&self, sheet: &Sheet, report: &Report, time: Duration) {
        let text = stage(sheet, report, time);
        let text = if self.in_place { rewritten(&text) } else { text + "\n" };
        let _ = io::stderr().write_all(text.as_bytes());
    }

    /// What brings standard error to the start of a line.
    pub fn line_end(&self) -> &'static str {
        if self.in_place {
            "\n"
        } else {
            ""
        }
    }

    pub fn finish(&self) {
        let _ = io::stderr().write_all(self.line_end().as_bytes());
    }
}

fn stage(sheet: &Sheet, report: &Report, time: Duration) -> String {
    let paid = format!("{} in {:.2} s", counted(report.sweeps), time.as_secs_f64());
    match &report.outcome {
        Outcome::Stopped(floor) => format!("{paid}, floor{}", values(sheet, floor)),
        Outcome::None | Outcome::Found(_) => paid + ", decided",
    }
}

fn values(sheet: &Sheet, point: &[i64]) -> String {
    sheet.named(point).map(|(name, value)| format!(" {name} {value}")).collect()
}

/// Goes to the line's start, clears to its end, and writes what fits.
fn rewritten(text: &str) -> String {
    let shown: String = text.chars().take(TERMINAL_COLUMNS).collect();
    format!("\r\x1b[K{shown}")
}

#[cfg(test)]
mod tests {
    use super::*;

    #[test]
    fn a_terminals_line_is_cleared_and_fits() {
        assert_eq!(rewritten("5 sweeps"), "\r\x1b[K5 sweeps");
        assert_eq!(rewritten(&"x".repeat(200)), format!("\r\x1b[K{}", "x".repeat(79)));
    }

    #[test]
    fn a_stage_has_sweeps_time_and_floor() {
        let sheet = Sheet::read(b"RUL 1\nrange a 0 3\nrange b 0 3\nmust a < b\n").expect("a sheet");
        let shown = |outcome| {
            let report = Report { outcome, sweeps: 5 };
            stage(&sheet, &report, Duration::from_millis(1250))
        };
        assert_eq!(shown(Outcome::Stopped(vec![1, 2, 9])), "5 sweeps in 1.25 s, floor a 1 b 2");
        assert_eq!(shown(Outcome::None), "5 sweeps in 1.25 s, decided");
    }
}
