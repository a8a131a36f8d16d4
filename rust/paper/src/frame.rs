//! The box being swept: a flat list of range ends with room for every problem.

use crate::MOST_QUANTITIES;

const ENDS: usize = 2 * MOST_QUANTITIES;

/// Where a quantity's range lies in a frame: the index of its low end, always
/// even, with the high end next to it. A byte reaches exactly the 256 ends of
/// a frame, so reading by place needs no bounds check.
pub type Place = u8;

/// The place of a quantity of a checked problem.
#[inline(always)]
pub fn place(quantity: i64) -> Place {
    (quantity as u8) << 1
}

/// A range: low end, high end.
pub type Ends = (i64, i64);

/// A range ran empty. The box is thrown away as it stands.
pub struct Empty;

/// A box. `changed` is raised whenever something is taken away from it.
pub struct Frame {
    ends: [i64; ENDS],
    pub changed: bool,
}

impl Frame {
    /// The box with the given ranges (a checked range list).
    pub fn new(ranges: &[i64]) -> Frame {
        let mut frame = Frame { ends: [0; ENDS], changed: false };
        frame.load(ranges);
        frame
    }

    pub fn load(&mut self, ranges: &[i64]) {
        self.ends[..ranges.len()].copy_from_slice(ranges);
    }

    #[inline(always)]
    pub fn range(&self, at: Place) -> Ends {
        (self.ends[usize::from(at)], self.ends[usize::from(at | 1)])
    }

    /// The low end for 0, the high end for 1.
    #[inline(always)]
    pub fn end(&self, at: Place, which: i64) -> i64 {
        self.ends[usize::from(at | which as u8)]
    }

    #[inline(always)]
    pub fn set(&mut self, at: Place, (low, high): Ends) {
        self.ends[usize::from(at)] = low;
        self.ends[usize::from(at | 1)] = high;
    }

    /// The lowest-numbered of the first `n` quantities with more than one value.
    pub fn first_open(&self, n: usize) -> Option<Place> {
        let open = self.ends[..2 * n].chunks_exact(2).position(|range| range[0] < range[1])?;
        Some(place(open as i64))
    }

    /// Halves the range at `at`: the box with the upper half goes to `waiting`,
    /// the lower half stays. The shift rounds the middle towards minus infinity.
    pub fn split(&mut self, at: Place, waiting: &mut [i64]) {
        let (low, high) = self.range(at);
        let middle = (low + high) >> 1;
        waiting.copy_from_slice(&self.ends[..waiting.len()]);
        waiting[usize::from(at)] = middle + 1;
        self.ends[usize::from(at | 1)] = middle;
    }

    /// The low end of each quantity: the point of a one-value box, the floor
    /// of any other.
    pub fn write_lows(&self, point: &mut [i64]) {
        for (value, range) in point.iter_mut().zip(self.ends.chunks_exact(2)) {
            *value = range[0];
        }
    }
}

#[cfg(test)]
mod tests {
    use super::*;

    #[test]
    fn splits_towards_minus_infinity() {
        for (start, lower, upper) in [([-1, 0], (-1, -1), [0, 0]), ([-3, 0], (-3, -2), [-1, 0])] {
            let mut frame = Frame::new(&start);
            let mut waiting = [9; 2];
            frame.split(place(0), &mut waiting);
            assert_eq!((frame.range(place(0)), waiting), (lower, upper));
        }
    }
}
