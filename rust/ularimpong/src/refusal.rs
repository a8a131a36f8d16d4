//! The error of every call that can refuse.

use std::error::Error;
use std::fmt;

use crate::calls::Fault;
use crate::ground::Ground;

/// A refusal: its ground, and the line at fault with its text.
#[derive(Clone, Debug, PartialEq, Eq, Hash)]
pub struct Refusal {
    pub ground: Ground,
    /// The line's number; 0 where no line is at fault.
    pub line: usize,
    /// The line's text; empty where no line is at fault.
    pub text: String,
}

impl Refusal {
    /// The refusal of a sheet.
    pub(crate) fn of_sheet(sheet: &[u8], fault: Fault) -> Refusal {
        let text = String::from_utf8_lossy(crate::line(sheet, fault.line)).into_owned();
        Refusal { ground: fault.ground, line: fault.line, text }
    }

    /// The refusal of a problem, which has no lines.
    pub(crate) fn of_problem(ground: Ground) -> Refusal {
        Refusal { ground, line: 0, text: String::new() }
    }
}

/// What is wrong, then the line at fault, then what to do, each if there is
/// something to say.
impl fmt::Display for Refusal {
    fn fmt(&self, f: &mut fmt::Formatter) -> fmt::Result {
        write!(f, "refused ({}): {}", self.ground.number(), self.ground.meaning())?;
        if self.line != 0 {
            write!(f, "\n  line {}: {}", self.line, self.text)?;
        }
        match self.ground.advice() {
            Some(advice) => write!(f, "\n  {advice}"),
            None => Ok(()),
        }
    }
}

impl Error for Refusal {}
