//! The proved library for Rust: problems, sheets and the desk's answers.
//!
//! ```no_run
//! use ularimpong::{Outcome, Sheet};
//!
//! let sheet = Sheet::read(b"RUL 2\nrange w 1 10\nmust w * w > 30\n")?;
//! let report = sheet.solve(100_000)?;
//! if let Outcome::Found(frame) = report.outcome {
//!     for (name, value) in sheet.named(&frame) {
//!         println!("{name} {value}");
//!     }
//! }
//! # Ok::<(), ularimpong::Refusal>(())
//! ```
//!
//! * [`Sheet`] is an accepted sheet, [`Problem`] the lists it was translated to,
//! * [`Refusal`] is the error of both, in words and with the line at fault,
//! * [`answer`] is the whole output of the desk program,
//! * [`line`] is one line of a text,
//! * [`calls`] has the library's calls themselves, over the caller's buffers.
//!
//! Nothing here panics, whatever it is handed. What each call does is said by
//! documents 01 and 02, and proved.

#![deny(unsafe_code)]

pub mod calls;
#[allow(unsafe_code)]
mod ffi;
mod ground;
mod problem;
mod refusal;
mod sheet;

pub use ground::Ground;
pub use problem::{Outcome, Problem, Report};
pub use refusal::Refusal;
pub use sheet::Sheet;

/// The desk's budget of sweeps.
pub const DESK_BUDGET: i64 = 100_000;
/// The desk's workspace, in numbers.
pub const DESK_ROOM: usize = 8_192;
/// The largest budget of sweeps that a solve takes.
pub const MOST_BUDGET: i64 = 1_000_000_000;
/// The most bytes a sheet may have.
pub const MOST_BYTES: usize = 4_096;

/// Everything the desk program prints for a sheet.
pub fn answer(text: &[u8]) -> Vec<u8> {
    let mut out = [0; calls::OUTPUT];
    let length = calls::answer(text, &mut out);
    out.into_iter().take(length).collect()
}

/// A line of a text without its LF, the first line being 1; empty for a line
/// that is not there.
pub fn line(text: &[u8], number: usize) -> &[u8] {
    text.get(calls::line_span(text, number)).unwrap_or_default()
}
