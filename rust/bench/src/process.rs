//! Whole programs: started, fed a sheet, and waited for.

use std::io::Write;
use std::path::Path;
use std::process::{Command, Stdio};
use std::time::Instant;

use crate::clock;

const ROUNDS: usize = 9;
const RUNS: u32 = 50;

/// Seconds for one run of a program: of processor time, and by the wall clock.
pub struct ProcessTime {
    pub processor: f64,
    pub wall: f64,
}

/// The best of nine measurements; None if the program can't be run.
pub fn time(program: &Path, sheet: &[u8]) -> Option<ProcessTime> {
    let mut best = ProcessTime { processor: f64::MAX, wall: f64::MAX };
    for _ in 0..ROUNDS {
        let (start, wall) = (clock::children(), Instant::now());
        for _ in 0..RUNS {
            run(program, sheet)?;
        }
        best.processor = best.processor.min((clock::children() - start) / f64::from(RUNS));
        best.wall = best.wall.min(wall.elapsed().as_secs_f64() / f64::from(RUNS));
    }
    Some(best)
}

fn run(program: &Path, sheet: &[u8]) -> Option<()> {
    let mut command = Command::new(program);
    let mut child =
        command.stdin(Stdio::piped()).stdout(Stdio::null()).stderr(Stdio::null()).spawn().ok()?;
    child.stdin.take()?.write_all(sheet).ok()?;
    child.wait().ok()?.success().then_some(())
}
