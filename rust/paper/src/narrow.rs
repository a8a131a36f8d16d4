//! Narrowing one constraint.
//!
//! Every value lies within plus or minus M = 10^12, so sums fit 64 bits with
//! room to spare. Products don't, but a saturated product is as good as the
//! exact one: it keeps its sign, it lies beyond every range end whenever the
//! exact one does, and it is only ever compared with range ends.
//!
//! Each equation comes in two forms. Where its quantities differ, the ranges
//! are read once, narrowed as plain values and stored at the end if anything
//! moved. Where one quantity stands in several places, each cut reads and
//! stores the ranges anew, as the next cut must see them.

use crate::frame::{place, Empty, Ends, Frame, Place};

type Narrowed = Result<(), Empty>;

/// The intersection of two ranges.
#[inline(always)]
fn meet(a: Ends, b: Ends) -> Ends {
    (a.0.max(b.0), a.1.min(b.1))
}

#[inline(always)]
fn inhabited(range: Ends) -> Result<Ends, Empty> {
    if range.0 > range.1 {
        Err(Empty)
    } else {
        Ok(range)
    }
}

/// Stores narrowed ranges, each with its place and its old range, if any of
/// them moved.
#[inline(always)]
fn store<const N: usize>(frame: &mut Frame, cuts: [(Place, Ends, Ends); N]) -> Narrowed {
    let mut moved = 0;
    let mut is_empty = false;
    for (_, old, new) in cuts {
        moved |= (old.0 ^ new.0) | (old.1 ^ new.1);
        is_empty |= new.0 > new.1;
    }
    if is_empty {
        return Err(Empty);
    }
    if moved != 0 {
        for (at, _, new) in cuts {
            frame.set(at, new);
        }
        frame.changed = true;
    }
    Ok(())
}

/// Cuts one range of the frame to what `narrowed` makes of it.
#[inline(always)]
fn recut(frame: &mut Frame, at: Place, narrowed: Ends) -> Narrowed {
    store(frame, [(at, frame.range(at), narrowed)])
}

/// z = x + y. A range that runs empty on the way makes no later value
/// overflow, so one look at the end is enough.
#[inline]
pub fn sum(frame: &mut Frame, z: Place, x: Place, y: Place) -> Narrowed {
    let (old_z, old_x, old_y) = (frame.range(z), frame.range(x), frame.range(y));
    let new_z = meet(old_z, sums(old_x, old_y));
    let new_x = meet(old_x, differences(new_z, old_y));
    let new_y = meet(old_y, differences(new_z, new_x));
    store(frame, [(z, old_z, new_z), (x, old_x, new_x), (y, old_y, new_y)])
}

/// z = x + y where a quantity stands in several places.
pub fn shared_sum(frame: &mut Frame, z: Place, x: Place, y: Place) -> Narrowed {
    recut(frame, z, meet(frame.range(z), sums(frame.range(x), frame.range(y))))?;
    recut(frame, x, meet(frame.range(x), differences(frame.range(z), frame.range(y))))?;
    recut(frame, y, meet(frame.range(y), differences(frame.range(z), frame.range(x))))
}

#[inline(always)]
pub fn sums(x: Ends, y: Ends) -> Ends {
    (x.0 + y.0, x.1 + y.1)
}

#[inline(always)]
pub fn differences(a: Ends, b: Ends) -> Ends {
    (a.0 - b.1, a.1 - b.0)
}

/// z = x * y. The end products hold 0 exactly where a factor does, so one look
/// at them tells that nothing can be trimmed.
#[inline]
pub fn product(frame: &mut Frame, z: Place, x: Place, y: Place) -> Narrowed {
    let (old_z, old_x, old_y) = (frame.range(z), frame.range(x), frame.range(y));
    let products = end_products(old_x, old_y);
    let new_z = inhabited(meet(old_z, products))?;
    if holds_zero(products) {
        if holds_zero(new_z) {
            // Neither factor is trimmed, and so neither divides.
            if holds_zero(old_x) & holds_zero(old_y) {
                return store(frame, [(z, old_z, new_z)]);
            }
        } else if ends_in_zero(old_x) | ends_in_zero(old_y) {
            return trimming_product(frame, z, x, y);
        }
    }
    let new_x = inhabited(cut_to_quotients(old_x, new_z, old_y))?;
    let new_y = cut_to_quotients(old_y, new_z, new_x);
    store(frame, [(z, old_z, new_z), (x, old_x, new_x), (y, old_y, new_y)])
}

/// z = x * y where a factor is trimmed. A trimmed range stays so in its box,
/// so this comes seldom.
#[cold]
#[inline(never)]
fn trimming_product(frame: &mut Frame, z: Place, x: Place, y: Place) -> Narrowed {
    shared_product(frame, z, x, y)
}

/// z = x * y where a quantity stands in several places.
pub fn shared_product(frame: &mut Frame, z: Place, x: Place, y: Place) -> Narrowed {
    recut(frame, z, meet(frame.range(z), end_products(frame.range(x), frame.range(y))))?;
    recut(frame, y, trimmed(frame.range(y), frame.range(z)))?;
    recut(frame, x, cut_to_quotients(frame.range(x), frame.range(z), frame.range(y)))?;
    recut(frame, x, trimmed(frame.range(x), frame.range(z)))?;
    recut(frame, y, cut_to_quotients(frame.range(y), frame.range(z), frame.range(x)))
}

/// A divisor's range before it divides: where z holds no 0, it loses a 0 at
/// its end, and [0, 0] becomes empty.
fn trimmed((low, high): Ends, z: Ends) -> Ends {
    if holds_zero(z) {
        return (low, high);
    }
    (low + i64::from(low == 0), high - i64::from(high == 0))
}

#[inline(always)]
fn holds_zero((low, high): Ends) -> bool {
    (low <= 0) & (high >= 0)
}

#[inline(always)]
fn ends_in_zero((low, high): Ends) -> bool {
    (low == 0) | (high == 0)
}

/// The least and greatest of the four end products, saturated.
#[inline(always)]
pub fn end_products((xl, xh): Ends, (yl, yh): Ends) -> Ends {
    if (xl >= 0) & (yl >= 0) {
        return (xl.saturating_mul(yl), xh.saturating_mul(yh));
    }
    let (a, b) = (xl.saturating_mul(yl), xl.saturating_mul(yh));
    let (c, d) = (xh.saturating_mul(yl), xh.saturating_mul(yh));
    (a.min(b).min(c.min(d)), a.max(b).max(c.max(d)))
}

/// A range cut to the quotients of z by `by`, if `by` holds no 0.
///
/// With a divisor above 0, signs decide which two of the four quotients are
/// the least and the greatest; a divisor below 0 is turned round together
/// with z. Whether an end moves at all is found by a product, since
/// x >= ceil(z / d) says the same as x * d >= z; most visits divide nothing.
#[inline(always)]
fn cut_to_quotients((mut low, mut high): Ends, z: Ends, by: Ends) -> Ends {
    let ((mut zl, mut zh), (mut dl, mut dh)) = (z, by);
    if dl <= 0 {
        if dh >= 0 {
            return (low, high);
        }
        (zl, zh) = (-zh, -zl);
        (dl, dh) = (-dh, -dl);
    }
    let below = if zl >= 0 { dh } else { dl };
    let above = if zh >= 0 { dl } else { dh };
    if low.saturating_mul(below) < zl {
        low = ceiling(zl, below);
    }
    if high.saturating_mul(above) > zh {
        high = floor(zh, above);
    }
    (low, high)
}

/// The quotient rounded towards minus infinity, for a divisor above 0.
#[inline(always)]
fn floor(value: i64, divisor: i64) -> i64 {
    value / divisor - i64::from(value % divisor < 0)
}

/// The quotient rounded towards plus infinity, for a divisor above 0.
#[inline(always)]
fn ceiling(value: i64, divisor: i64) -> i64 {
    value / divisor + i64::from(value % divisor > 0)
}

/// z = x squared.
#[inline]
pub fn square(frame: &mut Frame, z: Place, x: Place) -> Narrowed {
    let (old_z, old_x) = (frame.range(z), frame.range(x));
    let new_z = inhabited(meet(old_z, squares(old_x)))?;
    let new_x = cut_to_roots(old_x, new_z)?;
    store(frame, [(z, old_z, new_z), (x, old_x, new_x)])
}

/// x = x squared. After the first cut z is x as well; the cuts by roots read
/// z's low end only once the cut by its high end is done.
pub fn shared_square(frame: &mut Frame, x: Place) -> Narrowed {
    recut(frame, x, meet(frame.range(x), squares(frame.range(x))))?;
    let range = frame.range(x);
    recut(frame, x, cut_to_greatest_root(range, range.1))?;
    let range = frame.range(x);
    recut(frame, x, cut_to_least_root(range, range.0))
}

/// The exact range of the squares of a range, saturated.
#[inline(always)]
pub fn squares((low, high): Ends) -> Ends {
    let (a, b) = (low.saturating_mul(low), high.saturating_mul(high));
    let least = if (low <= 0) & (high >= 0) { 0 } else { a.min(b) };
    (least, a.max(b))
}

#[inline(always)]
fn cut_to_roots(x: Ends, z: Ends) -> Result<Ends, Empty> {
    let x = inhabited(cut_to_greatest_root(x, z.1))?;
    inhabited(cut_to_least_root(x, z.0))
}

/// A range cut to [-r, r], r the root of `square` rounded down. `square` is
/// not below 0: z was just cut to squares. The root is taken only where
/// comparing squares shows that it cuts.
#[inline(always)]
fn cut_to_greatest_root(x: Ends, square: i64) -> Ends {
    let (_, greatest) = squares(x);
    if greatest <= square {
        return x;
    }
    let root = root_down(square);
    meet(x, (-root, root))
}

/// A range with its low end raised, or its high end lowered, to the root of
/// `square` rounded up, if it lies on one side of 0. Only [0, 0] lies on both
/// sides, and then `square` is 0 and neither end moves.
#[inline(always)]
fn cut_to_least_root((low, high): Ends, square: i64) -> Ends {
    if (low >= 0) & (low.saturating_mul(low) < square) {
        return (root_up(square), high);
    }
    if (high <= 0) & (high.saturating_mul(high) < square) {
        return (low, -root_up(square));
    }
    (low, high)
}

/// The root rounded down, of a value from 0 to M. The hardware root of so
/// small a value is off by one at most; the loops put that right.
fn root_down(value: i64) -> i64 {
    let mut root = (value as f64).sqrt() as i64;
    while root * root > value {
        root -= 1;
    }
    while (root + 1) * (root + 1) <= value {
        root += 1;
    }
    root
}

/// The root rounded up, of a value from 0 to M.
fn root_up(value: i64) -> i64 {
    let root = root_down(value);
    root + i64::from(root * root < value)
}

/// A literal as the list has it: quantity, sense, bound.
pub type Literal = [i64; 3];

/// One clause. The reading ends at the second position that is not false:
/// nothing can follow from the rest.
#[inline]
pub fn clause(frame: &mut Frame, literals: &[Literal]) -> Narrowed {
    let mut standing: Option<&Literal> = None;
    for literal in literals {
        if is_false(frame, literal) {
            continue;
        }
        if standing.is_some() {
            return Ok(());
        }
        standing = Some(literal);
    }
    match standing {
        None => Err(Empty),
        Some(literal) => cut_by_literal(frame, literal),
    }
}

/// Whether no value of the range meets the literal. The low end decides for
/// "at most", the high end for "at least"; turning all bits round reverses
/// the order and makes both the same comparison.
#[inline(always)]
fn is_false(frame: &Frame, &[quantity, sense, bound]: &Literal) -> bool {
    let turn = -sense;
    (frame.end(place(quantity), sense) ^ turn) > (bound ^ turn)
}

#[inline(always)]
fn cut_by_literal(frame: &mut Frame, &[quantity, sense, bound]: &Literal) -> Narrowed {
    let at = place(quantity);
    let (low, high) = frame.range(at);
    match sense {
        0 => recut(frame, at, (low, high.min(bound))),
        _ => recut(frame, at, (low.max(bound), high)),
    }
}

#[cfg(test)]
mod tests {
    use super::*;
    use crate::M;

    /// Narrows quantities 0 and 1 and 2 by one product; None means empty.
    fn after_product(z: Ends, x: Ends, y: Ends) -> Option<[Ends; 3]> {
        let mut frame = Frame::new(&[z.0, z.1, x.0, x.1, y.0, y.1]);
        product(&mut frame, place(0), place(1), place(2)).ok()?;
        Some([frame.range(place(0)), frame.range(place(1)), frame.range(place(2))])
    }

    fn after_square(z: Ends, x: Ends) -> Option<Ends> {
        let mut frame = Frame::new(&[z.0, z.1, x.0, x.1]);
        square(&mut frame, place(0), place(1)).ok()?;
        Some(frame.range(place(1)))
    }

    fn after_clause(x: Ends, literals: &[i64]) -> Option<Ends> {
        let mut frame = Frame::new(&[x.0, x.1]);
        clause(&mut frame, literals.as_chunks().0).ok()?;
        Some(frame.range(place(0)))
    }

    #[test]
    fn p6_to_p8_quotients_round_inward() {
        let wide = (-100, 100);
        assert_eq!(after_product((7, 9), wide, (2, 2)), Some([(7, 9), (4, 4), (2, 2)]));
        assert_eq!(after_product((-9, -7), wide, (2, 2)), Some([(-9, -7), (-4, -4), (2, 2)]));
        assert_eq!(after_product((7, 7), wide, (2, 2)), None);
    }

    #[test]
    fn p9_and_p10_roots() {
        assert_eq!(after_square((5, 30), (0, 10)), Some((3, 5)));
        assert_eq!(after_square((5, 30), (-10, 10)), Some((-5, 5)));
        assert_eq!(after_square((5, 30), (-1, 10)), Some((-1, 5)));
        assert_eq!(after_square((5, 30), (-10, 0)), Some((-5, -3)));
    }

    #[test]
    fn p11_products_do_not_wrap() {
        assert_eq!(after_product((0, M), (M, M), (M, M)), None);
        let wraps_to_zero = 4_294_967_296;
        let one = (wraps_to_zero, wraps_to_zero);
        assert_eq!(after_product((0, M), one, one), None);
        assert_eq!(after_square((0, M), one), None);
    }

    #[test]
    fn division_by_a_range_below_zero() {
        let narrowed = after_product((7, 9), (-100, 100), (-2, -2));
        assert_eq!(narrowed, Some([(7, 9), (-4, -4), (-2, -2)]));
    }

    #[test]
    fn a_divisor_loses_a_zero_at_its_end() {
        let twelve = (12, 12);
        assert_eq!(after_product(twelve, (0, 8), (0, 9)), Some([twelve, (2, 8), (2, 6)]));
        assert_eq!(after_product(twelve, (-20, 20), (-8, 0)), Some([twelve, (-12, -2), (-6, -1)]));
        let below = (-12, -12);
        assert_eq!(after_product(below, (-20, 20), (0, 8)), Some([below, (-12, -2), (1, 6)]));
    }

    #[test]
    fn a_zero_inside_a_divisor_stays() {
        let twelve = (12, 12);
        assert_eq!(after_product(twelve, (-20, 20), (-3, 5)), Some([twelve, (-20, 20), (-3, 5)]));
        // x divides, trimmed or not, though y does not.
        assert_eq!(after_product(twelve, (3, 20), (-3, 5)), Some([twelve, (3, 20), (1, 4)]));
        assert_eq!(after_product(twelve, (0, 20), (-3, 5)), Some([twelve, (1, 20), (1, 5)]));
    }

    #[test]
    fn nothing_is_trimmed_where_z_holds_zero() {
        for z in [(0, 12), (-12, 0), (-1, 1)] {
            let wide = [z, (-30, 30), (0, 9)];
            assert_eq!(after_product(wide[0], wide[1], wide[2]), Some(wide));
        }
        assert_eq!(after_product((0, 12), (0, 8), (0, 9)), Some([(0, 12), (0, 8), (0, 9)]));
        assert_eq!(after_product((0, 12), (0, 8), (3, 9)), Some([(0, 12), (0, 4), (3, 9)]));
    }

    #[test]
    fn a_divisor_that_is_zero_is_empty() {
        assert_eq!(after_product((1, 9), (-9, 9), (0, 0)), None);
        assert_eq!(after_product((-9, -1), (0, 0), (-9, 9)), None);
        assert_eq!(after_product((0, 9), (-9, 9), (0, 0)), Some([(0, 0), (-9, 9), (0, 0)]));
        assert!(inhabited(trimmed((0, 0), (1, 9))).is_err());
        assert_eq!(trimmed((0, 0), (0, 9)), (0, 0));
    }

    #[test]
    fn a_trim_alone_is_a_change() {
        let mut frame = Frame::new(&[1, 100, 1, 20, 0, 8]);
        assert!(product(&mut frame, place(0), place(1), place(2)).is_ok());
        assert_eq!((frame.range(place(2)), frame.changed), ((1, 8), true));
        frame.changed = false;
        assert!(product(&mut frame, place(0), place(1), place(2)).is_ok());
        assert!(!frame.changed);
    }

    #[test]
    fn trims_see_the_ranges_before_them() {
        // x times x.
        let mut frame = Frame::new(&[9, 9, 0, 5]);
        assert!(shared_product(&mut frame, place(0), place(1), place(1)).is_ok());
        assert_eq!(frame.range(place(1)), (2, 4));
        // y = x * y, and x = x * y.
        for [z, x, y] in [[1, 0, 1], [1, 1, 0]] {
            let mut frame = Frame::new(&[0, 5, 2, 9]);
            assert!(shared_product(&mut frame, place(z), place(x), place(y)).is_ok());
            assert_eq!((frame.range(place(0)), frame.range(place(1))), ((1, 4), (2, 9)));
        }
    }

    #[test]
    fn one_cut_takes_both_ends_from_the_ranges_before_it() {
        let mut frame = Frame::new(&[10, 10, 1, 4]);
        assert!(shared_product(&mut frame, place(0), place(1), place(1)).is_ok());
        assert_eq!(frame.range(place(1)), (3, 3));
    }

    #[test]
    fn clauses_count_positions() {
        assert_eq!(after_clause((0, 9), &[]), None);
        assert_eq!(after_clause((0, 9), &[0, 0, 4]), Some((0, 4)));
        assert_eq!(after_clause((0, 9), &[0, 1, 4]), Some((4, 9)));
        assert_eq!(after_clause((0, 9), &[0, 0, 4, 0, 0, 4]), Some((0, 9)));
        assert_eq!(after_clause((0, 9), &[0, 0, 4, 0, 1, 6]), Some((0, 9)));
        assert_eq!(after_clause((0, 9), &[0, 0, -1, 0, 1, 6]), Some((6, 9)));
        assert_eq!(after_clause((0, 9), &[0, 0, -1, 0, 1, 10]), None);
    }

    #[test]
    fn roots_near_squares() {
        for root in [1, 2, 3, 1_000, 999_999, 1_000_000] {
            let value = root * root;
            assert_eq!((root_down(value), root_up(value)), (root, root));
            assert_eq!((root_down(value - 1), root_up(value - 1)), (root - 1, root.min(value - 1)));
        }
        assert_eq!((root_down(0), root_up(0)), (0, 0));
    }
}
