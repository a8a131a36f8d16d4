//! Buffers that show what was written where.

const GUARD: usize = 5;

/// A buffer with noise in it, lent without its first and last few numbers, so
/// that a write past either end shows too.
#[derive(Clone, PartialEq, Eq)]
pub struct Guarded<T> {
    all: Vec<T>,
}

impl Guarded<i64> {
    /// Each number of the noise is another, so that moved ones show.
    pub fn numbers(length: usize) -> Guarded<i64> {
        let noise = |place: usize| 7_000_000_000_000 + place as i64;
        Guarded { all: (0..length + 2 * GUARD).map(noise).collect() }
    }
}

impl Guarded<u8> {
    pub fn bytes(length: usize) -> Guarded<u8> {
        let noise = |place: usize| 128 + (place % 101) as u8;
        Guarded { all: (0..length + 2 * GUARD).map(noise).collect() }
    }
}

impl<T> Guarded<T> {
    pub fn lent(&mut self) -> &mut [T] {
        let end = self.all.len() - GUARD;
        &mut self.all[GUARD..end]
    }

    pub fn front(&self, count: usize) -> &[T] {
        &self.all[GUARD..GUARD + count]
    }
}

/// The first place where two buffers differ, in words.
pub fn difference<T: PartialEq + std::fmt::Debug>(
    name: &str,
    library: &Guarded<T>,
    paper: &Guarded<T>,
) -> Result<(), String> {
    let differs = library.all.iter().zip(&paper.all).position(|(a, b)| a != b);
    match differs {
        None => Ok(()),
        Some(place) => {
            let (a, b) = (&library.all[place], &paper.all[place]);
            let place = place as i64 - GUARD as i64;
            Err(format!("{name}[{place}] is {a:?}, not {b:?}"))
        }
    }
}
