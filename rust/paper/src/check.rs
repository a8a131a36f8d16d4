//! The eight grounds on which a solve refuses, in their order: 8 stands between 6 and 7.

use crate::{M, MOST_QUANTITIES};

const MOST_PRIMITIVE_NUMBERS: usize = 4 * 256;
const MOST_CLAUSES: usize = 256;
const MOST_LITERALS: i64 = 1_024;
const MOST_LITERAL_NUMBERS: usize = 3 * 1_024;
const MOST_SWEEPS: i64 = 1_000_000_000;

/// The four lists of a problem.
pub struct Lists<'a> {
    pub ranges: &'a [i64],
    pub primitives: &'a [i64],
    pub lengths: &'a [i64],
    pub literals: &'a [i64],
}

/// Gives the workspace need of a sound problem, or the number of its refusal.
pub fn check(
    lists: &Lists,
    leading: i64,
    budget: i64,
    point: usize,
    work: usize,
) -> Result<usize, u8> {
    let n = lists.ranges.len() / 2;
    refuse_unless(lists.ranges.len().is_multiple_of(2) && (1..=MOST_QUANTITIES).contains(&n), 1)?;
    refuse_unless(lists_fit(lists), 2)?;
    refuse_unless(lists.ranges.chunks_exact(2).all(range_is_sound), 3)?;
    refuse_unless(lists.primitives.chunks_exact(4).all(|p| primitive_is_sound(p, n)), 4)?;
    refuse_unless(lists.literals.chunks_exact(3).all(|l| literal_is_sound(l, n)), 5)?;
    refuse_unless((0..=MOST_SWEEPS).contains(&budget), 6)?;
    refuse_unless(leading_is_sound(lists, leading), 8)?;
    let (_, need) = workspace_need(lists.ranges, leading);
    refuse_unless(point == n && work >= need, 7)?;
    Ok(need)
}

/// D and the workspace need 2n(D+1) of a range list: D counts the halvings of
/// the leading ranges, n is the number of all.
///
/// The least k with 2^k at least the number of values is the bit length of
/// high - low, so the number of values itself (which could overflow for ends
/// that no problem may have) is never formed.
pub fn workspace_need(ranges: &[i64], leading: i64) -> (usize, usize) {
    let bits = |range: &[i64]| (u64::BITS - range[1].abs_diff(range[0]).leading_zeros()) as usize;
    let leading = usize::try_from(leading).unwrap_or(0);
    let depth: usize = ranges.chunks_exact(2).take(leading).map(bits).sum();
    let n = ranges.len() / 2;
    (depth, (2 * n).saturating_mul(depth + 1))
}

fn refuse_unless(sound: bool, number: u8) -> Result<(), u8> {
    if sound {
        Ok(())
    } else {
        Err(number)
    }
}

fn lists_fit(lists: &Lists) -> bool {
    lists.primitives.len() <= MOST_PRIMITIVE_NUMBERS
        && lists.primitives.len().is_multiple_of(4)
        && lists.lengths.len() <= MOST_CLAUSES
        && lists.literals.len() <= MOST_LITERAL_NUMBERS
        && lengths_fit(lists.lengths, lists.literals.len())
}

/// Each length is held to its bound before it is added: lengths are free
/// 64-bit numbers, and a wrapped sum could look right. A length above the
/// bound can't fit, as the literal list is not that long.
fn lengths_fit(lengths: &[i64], literal_numbers: usize) -> bool {
    lengths.iter().all(|length| (0..=MOST_LITERALS).contains(length))
        && 3 * lengths.iter().sum::<i64>() == literal_numbers as i64
}

fn within_m(value: i64) -> bool {
    (-M..=M).contains(&value)
}

fn is_quantity(number: i64, n: usize) -> bool {
    (0..n as i64).contains(&number)
}

fn range_is_sound(range: &[i64]) -> bool {
    range[0] <= range[1] && within_m(range[0]) && within_m(range[1])
}

fn primitive_is_sound(primitive: &[i64], n: usize) -> bool {
    let [kind, z, x, y] = [primitive[0], primitive[1], primitive[2], primitive[3]];
    let last_is_sound = match kind {
        1 | 2 => is_quantity(y, n),
        3 => y == 0,
        _ => false,
    };
    last_is_sound && is_quantity(z, n) && is_quantity(x, n)
}

/// The leading number is from 1 to n, and each later quantity has one value or
/// is the result of a primitive over lower-numbered ones. One pass over the
/// primitives, then one over the later ranges.
fn leading_is_sound(lists: &Lists, leading: i64) -> bool {
    let n = lists.ranges.len() / 2;
    let Some(first) = usize::try_from(leading).ok().filter(|first| (1..=n).contains(first)) else {
        return false;
    };
    let results = if first < n { results(lists.primitives) } else { 0 };
    let mut later = lists.ranges.chunks_exact(2).enumerate().skip(first);
    later.all(|(quantity, range)| range[0] == range[1] || results >> quantity & 1 == 1)
}

/// The quantities that are results, one bit for each.
fn results(primitives: &[i64]) -> u128 {
    primitives.chunks_exact(4).filter_map(result).fold(0, |all, quantity| all | 1 << quantity)
}

/// The quantity that a checked primitive makes of lower-numbered ones, if any.
/// In a sum every place may be the result, so it is the highest if that stands
/// once.
fn result(primitive: &[i64]) -> Option<i64> {
    let [kind, z, x, y] = [primitive[0], primitive[1], primitive[2], primitive[3]];
    let is_result = |q: i64, a: i64, b: i64| q > a && q > b;
    match kind {
        1 if is_result(x, z, y) => Some(x),
        1 if is_result(y, z, x) => Some(y),
        1 | 2 => is_result(z, x, y).then_some(z),
        _ => (z > x).then_some(z),
    }
}

fn literal_is_sound(literal: &[i64], n: usize) -> bool {
    is_quantity(literal[0], n) && (literal[1] == 0 || literal[1] == 1) && within_m(literal[2])
}

#[cfg(test)]
mod tests {
    use super::*;

    #[test]
    fn depth_counts_values_not_distances() {
        let of_one = |range: [i64; 2]| workspace_need(&range, 1);
        assert_eq!(of_one([5, 5]), (0, 2));
        assert_eq!(of_one([1, 16]), (4, 10));
        assert_eq!(of_one([1, 17]), (5, 12));
        assert_eq!(of_one([0, 1_000_000]), (20, 42));
        assert_eq!(of_one([-M, M]), (41, 84));
        assert_eq!(of_one([i64::MIN, i64::MAX]), (64, 130));
        assert_eq!(workspace_need(&[-M, M].repeat(128), 128), (128 * 41, 1_343_744));
    }

    #[test]
    fn depth_counts_the_leading_ranges_only() {
        let ranges = [1, 10, 0, 1, 0, 3, 5, 5];
        for (leading, depth) in [(1, 4), (2, 5), (3, 7), (4, 7), (9, 7), (i64::MAX, 7)] {
            assert_eq!(workspace_need(&ranges, leading), (depth, 8 * (depth + 1)));
        }
        for leading in [0, -1, i64::MIN] {
            assert_eq!(workspace_need(&ranges, leading), (0, 8));
        }
    }

    #[test]
    fn results_of_primitives() {
        for (primitive, wanted) in [
            ([1, 2, 0, 1], Some(2)),
            ([1, 2, 1, 1], Some(2)),
            ([1, 0, 2, 1], Some(2)),
            ([1, 0, 1, 2], Some(2)),
            ([1, 2, 2, 1], None),
            ([1, 1, 2, 2], None),
            ([1, 0, 0, 0], None),
            ([2, 2, 0, 1], Some(2)),
            ([2, 2, 2, 1], None),
            ([2, 0, 2, 1], None),
            ([2, 0, 1, 2], None),
            ([3, 1, 0, 0], Some(1)),
            ([3, 0, 1, 0], None),
            ([3, 1, 1, 0], None),
        ] {
            assert_eq!(result(&primitive), wanted, "{primitive:?}");
        }
        assert_eq!(results(&[1, 127, 0, 1, 3, 2, 1, 0]), 1 << 127 | 1 << 2);
    }

    #[test]
    fn later_quantities_are_one_value_or_results() {
        let is_sound = |ranges: &[i64], primitives: &[i64], leading: i64| {
            leading_is_sound(&Lists { ranges, primitives, lengths: &[], literals: &[] }, leading)
        };
        let pair = [0, 1, 0, 1];
        for leading in [i64::MIN, -1, 0, 1, 3, (1 << 32) + 1, i64::MAX] {
            assert!(!is_sound(&pair, &[], leading), "{leading}");
        }
        assert!(is_sound(&pair, &[], 2));
        assert!(is_sound(&[0, 1, 4, 4], &[], 1));
        assert!(is_sound(&pair, &[1, 1, 0, 0], 1));
        assert!(is_sound(&pair, &[2, 0, 1, 1, 1, 1, 0, 0], 1));
        assert!(!is_sound(&[0, 1, 0, 1, 0, 1], &[1, 1, 0, 0], 1));
    }

    #[test]
    fn lengths_never_wrap() {
        assert!(!lengths_fit(&[1 << 62; 4], 0));
        assert!(!lengths_fit(&[1, -1], 0));
        assert!(lengths_fit(&[0, 0], 0));
        assert!(lengths_fit(&[1_000, 24], 3_072));
    }
}
