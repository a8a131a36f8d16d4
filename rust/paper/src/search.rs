//! The search: sweep, split, and take back the box stored last.

use crate::check::{check, Lists};
use crate::frame::{place, Empty, Frame, Place};
use crate::narrow::{self, Literal};

/// What a search can answer.
#[derive(Clone, Copy, Debug, PartialEq, Eq)]
pub enum Answer {
    None,
    Found,
    Stopped,
}

/// The answer, or the number of the refusal (1 to 8), with the sweeps used.
#[derive(Clone, Copy, Debug, PartialEq, Eq)]
pub struct Solved {
    pub answer: Result<Answer, u8>,
    pub sweeps: i64,
}

/// Checks a problem, of whose quantities the first `leading` ones lead, and
/// searches it with at most `budget` sweeps.
///
/// Found writes the point, stopped the floor; none leaves `point` alone. A
/// refusal leaves both buffers alone; every other answer clears the needed
/// front of `work` and leaves the rest of it.
pub fn solve(
    ranges: &[i64],
    primitives: &[i64],
    lengths: &[i64],
    literals: &[i64],
    leading: i64,
    budget: i64,
    point: &mut [i64],
    work: &mut [i64],
) -> Solved {
    let lists = Lists { ranges, primitives, lengths, literals };
    match check(&lists, leading, budget, point.len(), work.len()) {
        Err(number) => Solved { answer: Err(number), sweeps: 0 },
        Ok(need) => {
            let work = &mut work[..need];
            let (answer, sweeps) = search(&Constraints::new(&lists), ranges, budget, point, work);
            work.fill(0);
            Solved { answer: Ok(answer), sweeps }
        }
    }
}

/// A primitive, its quantities already turned into places: four bytes. The
/// shared forms are for equations in which a quantity stands twice.
#[derive(Clone, Copy)]
enum Primitive {
    Sum(Place, Place, Place),
    SharedSum(Place, Place, Place),
    Product(Place, Place, Place),
    SharedProduct(Place, Place, Place),
    Square(Place, Place),
    SharedSquare(Place),
}

impl Primitive {
    fn new(numbers: &[i64]) -> Primitive {
        let (z, x, y) = (place(numbers[1]), place(numbers[2]), place(numbers[3]));
        let is_shared = z == x || z == y || x == y;
        match numbers[0] {
            1 if is_shared => Primitive::SharedSum(z, x, y),
            1 => Primitive::Sum(z, x, y),
            2 if is_shared => Primitive::SharedProduct(z, x, y),
            2 => Primitive::Product(z, x, y),
            _ if z == x => Primitive::SharedSquare(x),
            _ => Primitive::Square(z, x),
        }
    }

    #[inline(always)]
    fn narrow(self, frame: &mut Frame) -> Result<(), Empty> {
        match self {
            Primitive::Sum(z, x, y) => narrow::sum(frame, z, x, y),
            Primitive::SharedSum(z, x, y) => narrow::shared_sum(frame, z, x, y),
            Primitive::Product(z, x, y) => narrow::product(frame, z, x, y),
            Primitive::SharedProduct(z, x, y) => narrow::shared_product(frame, z, x, y),
            Primitive::Square(z, x) => narrow::square(frame, z, x),
            Primitive::SharedSquare(x) => narrow::shared_square(frame, x),
        }
    }
}

/// What a sweep visits.
struct Constraints<'a> {
    primitives: Vec<Primitive>,
    lengths: &'a [i64],
    literals: &'a [Literal],
}

impl<'a> Constraints<'a> {
    fn new(lists: &Lists<'a>) -> Constraints<'a> {
        let primitives = lists.primitives.chunks_exact(4).map(Primitive::new).collect();
        let (literals, _) = lists.literals.as_chunks();
        Constraints { primitives, lengths: lists.lengths, literals }
    }

    /// Visits the primitives, then the clauses; an empty range ends it at once.
    fn sweep(&self, frame: &mut Frame) -> Result<(), Empty> {
        for primitive in &self.primitives {
            primitive.narrow(frame)?;
        }
        let mut rest = self.literals;
        for &length in self.lengths {
            let (own, behind) = rest.split_at(length as usize);
            narrow::clause(frame, own)?;
            rest = behind;
        }
        Ok(())
    }
}

/// Runs a checked problem. The waiting boxes lie one behind the other in
/// `work`; there are never more than D of them, and `work` has room for D + 1.
/// D counts the leading ranges only: where these have one value each and a
/// sweep changed nothing, so has each later one, and is never split.
fn search(
    constraints: &Constraints,
    ranges: &[i64],
    budget: i64,
    point: &mut [i64],
    work: &mut [i64],
) -> (Answer, i64) {
    let size = ranges.len();
    let mut frame = Frame::new(ranges);
    let mut stored = 0;
    for used in 0..budget {
        frame.changed = false;
        match constraints.sweep(&mut frame) {
            Err(Empty) => {
                if stored == 0 {
                    return (Answer::None, used + 1);
                }
                stored -= size;
                frame.load(&work[stored..stored + size]);
            }
            Ok(()) if frame.changed => {}
            Ok(()) => match frame.first_open(point.len()) {
                None => {
                    frame.write_lows(point);
                    return (Answer::Found, used + 1);
                }
                Some(open) => {
                    frame.split(open, &mut work[stored..stored + size]);
                    stored += size;
                }
            },
        }
    }
    frame.write_lows(point);
    (Answer::Stopped, budget)
}
