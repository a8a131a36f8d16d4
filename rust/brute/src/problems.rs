//! Problems and random ones: small, extreme and damaged.

use crate::plain;
use crate::random::Random;
use crate::M;

/// The four lists of a problem, and how many of its quantities lead.
#[derive(Clone, Debug, Default, PartialEq, Eq)]
pub struct Problem {
    pub ranges: Vec<i64>,
    pub primitives: Vec<i64>,
    pub lengths: Vec<i64>,
    pub literals: Vec<i64>,
    pub leading: i64,
}

impl Problem {
    pub fn n(&self) -> usize {
        self.ranges.len() / 2
    }
}

/// A problem small enough to try every point. Half of them are built round a
/// hidden point, so that solutions are common too.
pub fn small(random: &mut Random) -> Problem {
    let n = 1 + random.below(5);
    let widest = [60, 24, 11, 7, 5][n - 1];
    let mut problem = Problem::default();
    for _ in 0..n {
        let low = random.between(-9, 9);
        problem.ranges.extend([low, low + random.between(0, widest - 1)]);
    }
    if random.once_in(2) {
        define_later_ones(random, &mut problem);
    }
    add_primitives(random, &mut problem, 4);
    if random.once_in(4) {
        put_zero_at_an_end(random, &mut problem, |random| random.between(1, 9));
    }
    if random.once_in(2) {
        fit_to_a_point(random, &mut problem);
    }
    add_clauses(random, &mut problem, |random| random.between(-12, 12));
    problem.leading = sound_leading(random, &problem);
    problem
}

/// Gives each quantity behind some number of them one value or a primitive that
/// makes it of lower-numbered ones.
fn define_later_ones(random: &mut Random, problem: &mut Problem) {
    let n = problem.n();
    for later in 1 + random.below(n)..n {
        if random.once_in(6) {
            problem.ranges[2 * later + 1] = problem.ranges[2 * later];
        } else {
            let primitive = defining(random, later);
            problem.primitives.extend(primitive);
        }
    }
}

/// A primitive that makes a quantity of lower-numbered ones.
fn defining(random: &mut Random, quantity: usize) -> [i64; 4] {
    let q = quantity as i64;
    let (a, b) = (random.below(quantity) as i64, random.below(quantity) as i64);
    *random.pick(&[[1, q, a, b], [1, a, q, b], [1, a, b, q], [2, q, a, b], [3, q, a, 0]])
}

/// A leading number that ground 8 allows: all quantities, the least that there
/// is, or one between.
pub fn sound_leading(random: &mut Random, problem: &Problem) -> i64 {
    let n = problem.n() as i64;
    let least = least_leading(problem);
    let between = random.between(least, n);
    *random.pick(&[n, least, between])
}

/// The least leading number that ground 8 allows.
pub fn least_leading(problem: &Problem) -> i64 {
    let last = (1..problem.n()).rev().find(|&later| !plain::is_defined(problem, later));
    last.map_or(1, |undefined| undefined as i64 + 1)
}

/// A sound problem whose leading number may then be one too low, too high or
/// far off, and one of whose primitives may be turned a little.
pub fn near_leading(random: &mut Random) -> Problem {
    let mut problem = if random.once_in(2) { small(random) } else { extreme(random) };
    let n = problem.n() as i64;
    if !problem.primitives.is_empty() && random.once_in(2) {
        turn_a_primitive(random, &mut problem);
    }
    let least = least_leading(&problem);
    let far = *random.pick(&[0, -1, i64::MIN, i64::MAX, n + 1, -n, 1 << 32, (1 << 32) + n]);
    problem.leading = match random.below(8) {
        0 => n,
        1 | 2 => least,
        3 | 4 => least - 1,
        5 => random.between(1, n),
        6 => random.between(0, n + 1),
        _ => far,
    };
    problem
}

/// Gives a primitive another kind or another quantity in one of its places.
fn turn_a_primitive(random: &mut Random, problem: &mut Problem) {
    let n = problem.n();
    let place = 4 * random.below(problem.primitives.len() / 4);
    let part = random.below(4);
    let number = if part == 0 { random.between(1, 3) } else { random.below(n) as i64 };
    problem.primitives[place + part] = number;
    if problem.primitives[place] == 3 {
        problem.primitives[place + 3] = 0;
    }
}

/// Stretches the range of each equation's result to take in its value at a point
/// of the ranges, as far as it stays small. The result is z, but in a sum a
/// higher-numbered x or y.
fn fit_to_a_point(random: &mut Random, problem: &mut Problem) {
    let mut point: Vec<i64> =
        problem.ranges.chunks(2).map(|range| random.between(range[0], range[1])).collect();
    for p in problem.primitives.chunks(4) {
        let [z, x, y] = [p[1] as usize, p[2] as usize, p[3] as usize];
        let (result, value, others) = match p[0] {
            1 if x > z => (x, point[z] - point[y], [z, y]),
            1 if y > z => (y, point[z] - point[x], [z, x]),
            1 => (z, point[x] + point[y], [x, y]),
            2 => (z, point[x] * point[y], [x, y]),
            _ => (z, point[x] * point[x], [x, x]),
        };
        if value.abs() <= 50 && !others.contains(&result) {
            let low = value - random.between(0, 2);
            point[result] = value;
            problem.ranges[2 * result] = low;
            problem.ranges[2 * result + 1] = value + random.between(0, 2);
        }
    }
}

/// A problem with ends anywhere within plus or minus M, mostly at places
/// where products, quotients and roots are at their edges.
pub fn extreme(random: &mut Random) -> Problem {
    let n = 1 + random.below(6);
    let mut problem = Problem::default();
    for _ in 0..n {
        let (a, b) = (notable(random), notable(random));
        let b = if random.once_in(3) { (a + random.between(0, 20)).min(M) } else { b };
        problem.ranges.extend([a.min(b), a.max(b)]);
    }
    if random.once_in(2) {
        define_later_ones(random, &mut problem);
    }
    add_primitives(random, &mut problem, 6);
    if random.once_in(4) {
        put_zero_at_an_end(random, &mut problem, |random| notable(random).abs().max(1));
    }
    add_clauses(random, &mut problem, notable);
    problem.leading = sound_leading(random, &problem);
    problem
}

/// Gives a factor of some product a range that ends in 0, and its z one on
/// one side of 0. Half the time the other factor gets one with 0 inside.
fn put_zero_at_an_end(
    random: &mut Random,
    problem: &mut Problem,
    reach: impl Fn(&mut Random) -> i64,
) {
    let products: Vec<[i64; 3]> =
        problem.primitives.chunks(4).filter(|p| p[0] == 2).map(|p| [p[1], p[2], p[3]]).collect();
    if products.is_empty() {
        return;
    }
    let [z, x, y] = *random.pick(&products);
    let (factor, other) = if random.once_in(2) { (x, y) } else { (y, x) };
    if random.once_in(2) {
        let range = [-reach(random), reach(random)];
        problem.ranges[2 * other as usize..][..2].copy_from_slice(&range);
    }
    for (quantity, nearest) in [(z, 1), (factor, 0)] {
        let far = reach(random);
        let range = if random.once_in(2) { [nearest, far] } else { [-far, -nearest] };
        problem.ranges[2 * quantity as usize..][..2].copy_from_slice(&range);
    }
}

/// A number within plus or minus M, often next to a notable one.
pub fn notable(random: &mut Random) -> i64 {
    const BASES: [i64; 12] = [
        0,
        1,
        10,
        1_000,
        999_999,
        1_000_000,
        46_340,
        3_037_000_499,
        4_294_967_296,
        65_536,
        1_000_000_000,
        M,
    ];
    let base = match random.below(5) {
        0 => random.between(-M, M),
        1 => {
            let root = random.between(0, 1_000_000);
            root * root
        }
        2 => random.between(-30, 30),
        _ => *random.pick(&BASES),
    };
    let sign = if random.once_in(2) { -1 } else { 1 };
    (sign * base + random.between(-2, 2)).clamp(-M, M)
}

fn add_primitives(random: &mut Random, problem: &mut Problem, most: usize) {
    let n = problem.n();
    for _ in 0..random.below(most + 1) {
        let kind = random.between(1, 3);
        let (z, x) = (random.below(n) as i64, random.below(n) as i64);
        let y = if kind == 3 { 0 } else { random.below(n) as i64 };
        problem.primitives.extend([kind, z, x, y]);
    }
}

fn add_clauses(random: &mut Random, problem: &mut Problem, bound: impl Fn(&mut Random) -> i64) {
    let n = problem.n();
    for _ in 0..random.below(5) {
        let length = if random.once_in(40) { 0 } else { 1 + random.below(4) };
        problem.lengths.push(length as i64);
        for _ in 0..length {
            let quantity = random.below(n) as i64;
            problem.literals.extend([quantity, random.between(0, 1), bound(random)]);
        }
    }
}

/// Lists of any lengths with any numbers in them.
pub fn arbitrary(random: &mut Random) -> Problem {
    let mut list = |step: usize, most: usize| -> Vec<i64> {
        let mut length = step * random.below(4);
        if random.once_in(30) {
            length = most - step + random.below(2 * step + 1);
        } else if random.once_in(10) {
            length += 1;
        }
        let is_tame = !random.once_in(3);
        (0..length).map(|_| any_number(random, is_tame)).collect()
    };
    let ranges = list(2, 256);
    let primitives = list(4, 1_024);
    let literals = list(3, 3_072);
    let mut lengths = list(1, 256);
    if random.once_in(2) {
        lengths = vec![literals.len() as i64 / 3];
    }
    let leading = match random.below(3) {
        0 => any_number(random, false),
        1 => random.between(0, 3),
        _ => ranges.len() as i64 / 2,
    };
    Problem { ranges, primitives, lengths, literals, leading }
}

fn any_number(random: &mut Random, is_tame: bool) -> i64 {
    match random.below(if is_tame { 40 } else { 6 }) {
        0 => random.bits() as i64,
        1 => *random.pick(&[i64::MIN, i64::MAX, i64::MIN + 1, 1 << 32, M + 1, -M - 1, M, -M]),
        _ => random.between(0, 2),
    }
}

/// Everything a solve is handed, with the refusal it must give.
pub struct Damaged {
    pub problem: Problem,
    pub budget: i64,
    pub point: usize,
    pub work: usize,
    pub refusal: u8,
}

/// The grounds of a solve in the order in which they are looked at.
const ORDER: [u8; 8] = [1, 2, 3, 4, 5, 6, 8, 7];

/// Does one to three of the eight kinds of damage to a problem. They are done
/// from the last ground to the first, so that the first is surely left standing;
/// and each kind brings in no fault that is looked at before its own.
pub fn damaged(random: &mut Random, problem: Problem, need: usize) -> Damaged {
    let point = problem.n();
    let mut case = Damaged { problem, budget: random.between(0, 9), point, work: need, refusal: 0 };
    let mut places: Vec<usize> =
        (0..1 + random.below(3)).map(|_| random.below(ORDER.len())).collect();
    places.sort_unstable_by(|a, b| b.cmp(a));
    // The same kind twice could undo itself.
    places.dedup();
    for place in places {
        damage(random, &mut case, ORDER[place]);
        case.refusal = ORDER[place];
    }
    case
}

fn damage(random: &mut Random, case: &mut Damaged, number: u8) {
    match number {
        1 => damage_count(random, &mut case.problem),
        2 => damage_lists(random, &mut case.problem),
        3 => damage_range(random, &mut case.problem),
        4 => damage_primitive(random, &mut case.problem),
        5 => damage_literal(random, &mut case.problem),
        6 => case.budget = *random.pick(&[-1, 1_000_000_001, i64::MIN, i64::MAX]),
        8 => damage_leading(random, &mut case.problem),
        _ => damage_buffers(random, case),
    }
}

fn damage_count(random: &mut Random, problem: &mut Problem) {
    match random.below(4) {
        0 => problem.ranges.clear(),
        1 => problem.ranges.push(0),
        2 => {
            problem.ranges.pop();
        }
        _ => problem.ranges.resize(258, 0),
    }
}

fn damage_lists(random: &mut Random, problem: &mut Problem) {
    match random.below(9) {
        0 => problem.primitives.push(1),
        1 => problem.primitives.resize(1_028, 0),
        2 => problem.lengths.resize(257, 0),
        3 => {
            problem.lengths = vec![5; 205];
            problem.literals = vec![0; 3 * 1_025];
        }
        4 => problem.lengths.push(1),
        5 => problem.literals.push(0),
        6 => problem.literals.extend([0, 0, 0]),
        7 => {
            problem.lengths.extend([1, -1]);
        }
        _ => problem.lengths.extend([i64::MAX, 1, i64::MAX, 1]),
    }
}

fn damage_range(random: &mut Random, problem: &mut Problem) {
    let quantity = random.below(problem.n());
    let range: [i64; 2] = *random.pick(&[
        [1, 0],
        [i64::MAX, i64::MIN],
        [-M - 1, 0],
        [0, M + 1],
        [i64::MIN, i64::MAX],
        [M + 1, M + 1],
        [i64::MIN, i64::MIN],
    ]);
    problem.ranges[2 * quantity..2 * quantity + 2].copy_from_slice(&range);
}

/// Numbers that are no quantity of a problem with n quantities, among them
/// those that a cast to a smaller type would let through.
fn missing(random: &mut Random, n: usize) -> i64 {
    *random.pick(&[-1, n as i64, 128, 256, 1 << 32, -(1 << 32), 1 << 63, i64::MAX])
}

fn damage_primitive(random: &mut Random, problem: &mut Problem) {
    let n = problem.n();
    let bad = missing(random, n);
    let primitive = match random.below(7) {
        0 => [*random.pick(&[0, 4, -1, 1 << 32, i64::MIN, 257]), 0, 0, 0],
        1 => [1, bad, 0, 0],
        2 => [1, 0, bad, 0],
        3 => [2, 0, 0, bad],
        4 => [3, bad, 0, 0],
        5 => [3, 0, bad, 0],
        _ => [3, 0, 0, *random.pick(&[1, -1, i64::MIN, 1 << 32])],
    };
    let place = 4 * random.below(problem.primitives.len() / 4 + 1);
    problem.primitives.splice(place..place, primitive);
}

fn damage_literal(random: &mut Random, problem: &mut Problem) {
    let literal = match random.below(3) {
        0 => [missing(random, problem.n()), 0, 0],
        1 => [0, *random.pick(&[2, -1, 1 << 32, i64::MIN, 256]), 0],
        _ => [0, 1, *random.pick(&[M + 1, -M - 1, i64::MIN, i64::MAX])],
    };
    problem.lengths.insert(0, 1);
    problem.literals.splice(0..0, literal);
}

/// A leading number outside 1 to n, or a last quantity that nothing defines.
fn damage_leading(random: &mut Random, problem: &mut Problem) {
    let n = problem.n() as i64;
    if random.once_in(2) {
        let far = [0, -1, n + 1, -n, 1 << 32, (1 << 32) + n, i64::MIN, i64::MAX];
        problem.leading = *random.pick(&far);
    } else {
        problem.ranges.extend([0, 1]);
        let open = [vec![], vec![1, n, n, 0], vec![1, 0, n, n], vec![2, 0, n, 0], vec![3, 0, n, 0]];
        problem.primitives.extend(random.pick(&open));
        problem.leading = random.between(1, n);
    }
}

fn damage_buffers(random: &mut Random, case: &mut Damaged) {
    match random.below(4) {
        0 => case.point += 1,
        1 => case.point -= 1,
        2 => case.work -= 1,
        _ => case.work = 0,
    }
}
