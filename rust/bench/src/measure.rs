//! Times of two rivals, measured in turns.

use crate::clock;

/// How often each rival is measured; the best time counts.
const ROUNDS: usize = 9;
/// How long a measurement lasts at least, in seconds: far longer than the
/// clock's smallest step.
const LEAST: f64 = 0.02;

/// Seconds for one run of each rival.
#[derive(Clone, Copy)]
pub struct Times {
    pub library: f64,
    pub paper: f64,
}

impl Times {
    /// How many times as fast as the paper crate the library is.
    pub fn ratio(&self) -> f64 {
        self.paper / self.library
    }
}

/// The best of nine measurements of each rival, taken in turns so that both
/// meet the same state of the machine.
pub fn duel(mut library: impl FnMut(), mut paper: impl FnMut()) -> Times {
    let (library_repeats, paper_repeats) = (repeats(&mut library), repeats(&mut paper));
    let mut best = Times { library: f64::MAX, paper: f64::MAX };
    for _ in 0..ROUNDS {
        best.library = best.library.min(time(&mut library, library_repeats));
        best.paper = best.paper.min(time(&mut paper, paper_repeats));
    }
    best
}

/// How many runs make a measurement long enough.
fn repeats(run: &mut impl FnMut()) -> u32 {
    let mut repeats = 1;
    while time(run, repeats) * f64::from(repeats) < LEAST {
        repeats *= 2;
    }
    repeats
}

/// Seconds of processor time for one of several runs.
fn time(run: &mut impl FnMut(), repeats: u32) -> f64 {
    let start = clock::own();
    for _ in 0..repeats {
        run();
    }
    (clock::own() - start) / f64::from(repeats)
}
