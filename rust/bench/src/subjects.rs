//! The problems that are measured: one for each kind of work, and the sheets
//! of the repository.

use std::path::Path;

use brute::problems::Problem;
use brute::M;
use ularimpong::{Sheet, DESK_BUDGET};

/// A named problem with its budget of sweeps.
pub struct Subject {
    pub name: String,
    pub group: Group,
    pub problem: Problem,
    pub budget: i64,
}

/// What is summed up together. Roots stand apart: they cost far more than
/// everything else, and sheets seldom ask for many.
#[derive(Clone, Copy, PartialEq, Eq)]
pub enum Group {
    Made,
    Roots,
    Sheet,
}

/// A sheet of the repository.
pub struct SheetText {
    pub name: String,
    pub text: Vec<u8>,
}

/// The problems that are made here. All their quantities lead.
pub fn made() -> Vec<Subject> {
    let subject = |name: &str, group, problem: Problem, budget| Subject {
        name: name.to_string(),
        group,
        problem: Problem { leading: problem.n() as i64, ..problem },
        budget,
    };
    let plain = |name, problem, budget| subject(name, Group::Made, problem, budget);
    vec![
        plain("one product: the factors of a number", factors(), 20_000),
        plain("256 sums, each cuts", creeping(), 2_000),
        plain("126 sums, none cuts", quiet(1, [-200, 200], [-100, 100]), 2_000),
        plain("126 products round 0, none cuts", quiet(2, [-10_000, 10_000], [-100, 100]), 2_000),
        plain("126 products above 0, none cuts", quiet(2, [1, 10_000], [1, 100]), 2_000),
        plain("126 products from 0, trimmed in sweep 1", quiet(2, [1, 10_000], [0, 100]), 2_000),
        plain("126 products past 64 bits, none cuts", quiet(2, [-M, M], [-M, M]), 2_000),
        plain("40 products, each cuts by quotients", quotients(), 5_000),
        plain("126 squares round 0, none cuts", quiet(3, [0, 10_000], [-100, 100]), 2_000),
        plain("126 squares above 0, none cuts", quiet(3, [0, 10_000], [0, 100]), 2_000),
        plain("4 clauses of 256 literals", long_clauses(), 2_000),
        plain("256 clauses of 4 literals", short_clauses(), 2_000),
        plain("20 clauses of 50 alternatives, the first two open", alternatives(0), 2_000),
        plain("20 clauses of 50 alternatives, the last two open", alternatives(48), 2_000),
        plain("128 quantities, splits alone", deep_splits(), 10_000),
        plain("5 quantities, splits and returns", odd_and_even(), 20_000),
        plain("sums, products, squares and clauses", mixture(), 5_000),
        subject("40 squares, each takes two roots", Group::Roots, roots(), 5_000),
    ]
}

/// The repository's sheets, in the order of their names.
pub fn sheet_texts() -> Vec<SheetText> {
    let folder = Path::new(env!("CARGO_MANIFEST_DIR")).join("../../crates/examples/data");
    let entries = std::fs::read_dir(folder).into_iter().flatten().flatten();
    let mut sheets: Vec<SheetText> = entries
        .filter_map(|entry| {
            let name = entry.file_name().to_string_lossy().into_owned();
            Some(SheetText { name, text: std::fs::read(entry.path()).ok()? })
        })
        .filter(|sheet| sheet.name.ends_with(".rul"))
        .collect();
    sheets.sort_by(|a, b| a.name.cmp(&b.name));
    sheets
}

/// The problems of those sheets, with the desk's budget and room for each.
pub fn sheets() -> Vec<Subject> {
    let subject = |sheet: SheetText| {
        let accepted = Sheet::read(&sheet.text).ok()?;
        let lists = accepted.problem().clone();
        let leading = lists.leading();
        let problem = Problem {
            ranges: lists.ranges,
            primitives: lists.primitives,
            lengths: lists.lengths,
            literals: lists.literals,
            leading,
        };
        Some(Subject { name: sheet.name, group: Group::Sheet, problem, budget: DESK_BUDGET })
    };
    sheet_texts().into_iter().filter_map(subject).collect()
}

fn add_clause(problem: &mut Problem, literals: &[[i64; 3]]) {
    problem.lengths.push(literals.len() as i64);
    problem.literals.extend(literals.as_flattened());
}

/// Quantities 0 to 4 under 2x = 2y + 1: no solution, and no narrowing shows it
/// before x and y have one value each. It makes the sweeps for what stands
/// beside it; its primitives come last, so that every sweep visits the others.
fn odd_and_even() -> Problem {
    let mut problem = Problem {
        ranges: vec![0, 1_000_000, 0, 1_000_000, 0, 2_000_000, 0, 2_000_000, 1, 1],
        ..Problem::default()
    };
    add_odd_and_even(&mut problem);
    problem
}

fn add_odd_and_even(problem: &mut Problem) {
    problem.primitives.extend([1, 2, 0, 0, 1, 3, 1, 1, 1, 2, 3, 4]);
}

/// The ranges of `odd_and_even`, its primitives left for later.
fn beside_odd_and_even() -> Problem {
    Problem { primitives: Vec::new(), ..odd_and_even() }
}

/// A new quantity.
fn quantity(problem: &mut Problem, range: [i64; 2]) -> i64 {
    problem.ranges.extend(range);
    problem.n() as i64 - 1
}

/// The product of two primes, and its factors.
fn factors() -> Problem {
    let number = 850_009 * 850_021;
    Problem {
        ranges: vec![2, 1_000_000, 2, 1_000_000, number, number],
        primitives: vec![2, 2, 0, 1],
        ..Problem::default()
    }
}

/// Each quantity of a ring is its neighbour and one more: no solution, but a
/// sweep only moves every end on.
fn creeping() -> Problem {
    let mut problem = Problem::default();
    for _ in 0..127 {
        quantity(&mut problem, [0, M]);
    }
    let one = quantity(&mut problem, [1, 1]);
    for q in 0..127 {
        let next = (q + 1) % 127;
        problem.primitives.extend([1, next, q, one]);
        problem.primitives.extend([1, next, one, q]);
    }
    problem
}

/// 41 sites of z and operands that a primitive leaves alone, each visited
/// about three times in a sweep.
fn quiet(kind: i64, z: [i64; 2], operand: [i64; 2]) -> Problem {
    let mut problem = beside_odd_and_even();
    let mut sites = Vec::new();
    for _ in 0..41 {
        let z = quantity(&mut problem, z);
        let x = quantity(&mut problem, operand);
        let y = quantity(&mut problem, operand);
        sites.push([kind, z, x, if kind == 3 { 0 } else { y }]);
    }
    for site in sites.into_iter().cycle().take(126) {
        problem.primitives.extend(site);
    }
    add_odd_and_even(&mut problem);
    problem
}

/// 40 products of one factor x that is asked to be 3u and 3v + 1: its ends
/// creep, and each step moves every quotient.
fn quotients() -> Problem {
    let mut problem = Problem::default();
    let x = quantity(&mut problem, [100_000, 200_000]);
    for site in 0..40 {
        let low = 900_000_000_000 + 1_000_003 * site;
        let z = quantity(&mut problem, [low, low + 50_000_000]);
        let y = quantity(&mut problem, [1, M]);
        problem.primitives.extend([2, z, x, y]);
    }
    let (one, three) = (quantity(&mut problem, [1, 1]), quantity(&mut problem, [3, 3]));
    let (u, v) = (quantity(&mut problem, [0, M]), quantity(&mut problem, [0, M]));
    let t = quantity(&mut problem, [0, M]);
    problem.primitives.extend([2, x, u, three, 2, t, v, three, 1, x, t, one]);
    problem
}

/// y is asked to be 3,000,000 more than itself: its ends come together by that
/// much in a sweep, and each square takes a root for its low end and one for
/// its high end.
fn roots() -> Problem {
    let mut problem = Problem::default();
    let y = quantity(&mut problem, [0, M - 1_000_000]);
    let t = quantity(&mut problem, [0, M]);
    let (zero, step) = (quantity(&mut problem, [0, 0]), quantity(&mut problem, [3_000_000; 2]));
    problem.primitives.extend([1, y, t, step, 1, t, y, zero]);
    for site in 0..40 {
        let offset = quantity(&mut problem, [site * 997, site * 997]);
        let z = quantity(&mut problem, [0, M]);
        let x = quantity(&mut problem, [0, 1_000_000]);
        problem.primitives.extend([1, z, y, offset]);
        problem.primitives.extend([3, z, x, 0]);
    }
    problem
}

/// All literals are false but the last two, which stay undecided.
fn long_clauses() -> Problem {
    let mut problem = beside_odd_and_even();
    let zero = quantity(&mut problem, [0, 0]);
    let open = quantity(&mut problem, [-9, 9]);
    let mut literals = vec![[zero, 1, 1]; 254];
    literals.extend([[open, 0, 0], [open, 1, 1]]);
    for _ in 0..4 {
        add_clause(&mut problem, &literals);
    }
    add_odd_and_even(&mut problem);
    problem
}

/// Clauses of fifty literals: two that stay undecided stand behind some false
/// ones, and the rest is false. The second of the two decides the clause.
fn alternatives(before: usize) -> Problem {
    let mut problem = beside_odd_and_even();
    let zero = quantity(&mut problem, [0, 0]);
    let open = quantity(&mut problem, [-9, 9]);
    let mut literals = [[zero, 1, 1]; 50];
    literals[before] = [open, 0, 0];
    literals[before + 1] = [open, 1, 1];
    for _ in 0..20 {
        add_clause(&mut problem, &literals);
    }
    add_odd_and_even(&mut problem);
    problem
}

/// Half of the clauses are undecided from the start, in half all but one
/// literal are false and that one is true.
fn short_clauses() -> Problem {
    let mut problem = beside_odd_and_even();
    let zero = quantity(&mut problem, [0, 0]);
    let open = quantity(&mut problem, [-9, 9]);
    for _ in 0..128 {
        add_clause(&mut problem, &[[open, 0, 0], [open, 1, 1], [zero, 1, 1], [zero, 1, 1]]);
        add_clause(&mut problem, &[[zero, 1, 1], [zero, 0, -1], [zero, 1, 2], [zero, 0, 0]]);
    }
    add_odd_and_even(&mut problem);
    problem
}

/// Nothing but splits, each of which stores a box of 256 numbers.
fn deep_splits() -> Problem {
    Problem { ranges: [0, M].repeat(128), ..Problem::default() }
}

fn mixture() -> Problem {
    let mut problem = beside_odd_and_even();
    for _ in 0..20 {
        let a = quantity(&mut problem, [1, 300]);
        let b = quantity(&mut problem, [-20, 40]);
        let sum = quantity(&mut problem, [-19, 340]);
        let product = quantity(&mut problem, [-6_000, 12_000]);
        let square = quantity(&mut problem, [0, 1_600]);
        problem.primitives.extend([1, sum, a, b, 2, product, a, b, 3, square, b, 0]);
        add_clause(&mut problem, &[[sum, 0, 50], [product, 1, 100], [square, 0, 9]]);
        add_clause(&mut problem, &[[a, 1, 301], [b, 0, 40]]);
    }
    add_odd_and_even(&mut problem);
    problem
}
