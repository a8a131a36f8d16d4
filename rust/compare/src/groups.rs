//! The groups of cases.

use std::collections::BTreeMap;
use std::path::Path;

use brute::problems::{self, Problem};
use brute::random::Random;
use brute::{sheets, tree};

use crate::both::{answer_agrees, line_agrees, solve_agrees, translate_agrees, Given, Kind, FULL};
use crate::{lists, report, texts};

/// Sheets that need more sweeps are given to the desk only now and then: its
/// budget is large.
const QUICK: i64 = 2_000;

pub struct Group {
    pub name: &'static str,
    pub cases: u64,
    pub check: fn(&mut Random) -> Result<Kind, String>,
}

pub const GROUPS: [Group; 19] = [
    Group { name: "small problems", cases: 100_000, check: small_problem },
    Group { name: "extreme numbers", cases: 100_000, check: extreme_problem },
    Group { name: "damaged problems", cases: 100_000, check: damaged_problem },
    Group { name: "arbitrary lists", cases: 100_000, check: arbitrary_lists },
    Group { name: "full lists", cases: 10_000, check: full_problem },
    Group { name: "long searches", cases: 5_000, check: long_search },
    Group { name: "small sheets", cases: 50_000, check: small_sheet },
    Group { name: "faulty sheets", cases: 100_000, check: faulty_sheet },
    Group { name: "damaged sheets", cases: 100_000, check: damaged_sheet },
    Group { name: "sheets with a token moved", cases: 100_000, check: shuffled_sheet },
    Group { name: "first lines", cases: 50_000, check: first_line },
    Group { name: "spelled numbers", cases: 50_000, check: spelled_numbers },
    Group { name: "long sheets", cases: 10_000, check: long_sheet },
    Group { name: "sheets of 4,093 to 4,100 bytes", cases: 2_000, check: full_sheet },
    Group { name: "any bytes", cases: 50_000, check: any_bytes },
    Group { name: "lists of any size", cases: 20_000, check: list_sizes },
    Group { name: "lines of texts", cases: 100_000, check: line_of_text },
    Group { name: "default ranges", cases: 50_000, check: default_ranges },
    Group { name: "leading numbers near their limits", cases: 100_000, check: near_leading },
];

fn small_problem(random: &mut Random) -> Result<Kind, String> {
    let problem = problems::small(random);
    let budget = if random.once_in(3) { random.between(0, 30) } else { 1_000_000_000 };
    solve_agrees(random, &problem, budget)
}

fn extreme_problem(random: &mut Random) -> Result<Kind, String> {
    let problem = problems::extreme(random);
    let budget = random.between(0, 200);
    solve_agrees(random, &problem, budget)
}

fn damaged_problem(random: &mut Random) -> Result<Kind, String> {
    let problem =
        if random.once_in(2) { problems::small(random) } else { problems::extreme(random) };
    let need = paper::workspace_need(&problem.ranges, problem.leading).1;
    let case = problems::damaged(random, problem, need);
    let problem = &case.problem;
    Given { problem, budget: case.budget, point: case.point, work: case.work }.agrees()
}

fn arbitrary_lists(random: &mut Random) -> Result<Kind, String> {
    let problem = problems::arbitrary(random);
    refused_or_solved(random, &problem)
}

fn near_leading(random: &mut Random) -> Result<Kind, String> {
    let problem = problems::near_leading(random);
    refused_or_solved(random, &problem)
}

/// A problem that may be refused, with buffers that are mostly right.
fn refused_or_solved(random: &mut Random, problem: &Problem) -> Result<Kind, String> {
    let budget = if random.once_in(20) { random.bits() as i64 } else { random.between(0, 40) };
    // A sound problem must not be given a budget that takes for ever.
    let budget = if (0..=1_000_000_000).contains(&budget) { budget.min(1_000) } else { budget };
    let need = paper::workspace_need(&problem.ranges, problem.leading).1;
    let point = problem.n() + random.below(20) / 19;
    let work = (need + 3).saturating_sub(random.below(10) / 9 * 4);
    Given { problem, budget, point, work }.agrees()
}

fn full_problem(random: &mut Random) -> Result<Kind, String> {
    let problem = lists::full(random);
    let budget = random.between(0, 40);
    solve_agrees(random, &problem, budget)
}

fn long_search(random: &mut Random) -> Result<Kind, String> {
    let problem = lists::long_search(random);
    let budget = random.between(0, 5_000);
    solve_agrees(random, &problem, budget)
}

/// A sheet's problem with another leading number: more quantities than the
/// declared ones, which is allowed, or now and then anything near.
fn led_otherwise(random: &mut Random, problem: &Problem) -> Problem {
    let n = problem.n() as i64;
    let leading = if random.once_in(8) {
        random.between(-1, n + 1)
    } else {
        random.between(problem.leading, n)
    };
    Problem { leading, ..problem.clone() }
}

/// A sheet through every call: translated, solved with some budget, answered
/// as the desk does, and the line at fault read.
fn sheet_agrees(random: &mut Random, text: &[u8]) -> Result<Kind, String> {
    let problem = match translate_agrees(text, FULL)? {
        Ok(problem) => problem,
        Err(fault) => {
            answer_agrees(text)?;
            line_agrees(text, fault.line)?;
            return Ok(Kind::Refused(fault.ground.number()));
        }
    };
    let budget = random.between(0, 30);
    let led = led_otherwise(random, &problem);
    solve_agrees(random, &led, budget)?;
    let kind = solve_agrees(random, &problem, QUICK)?;
    if kind != Kind::Stopped || random.once_in(100) {
        answer_agrees(text)?;
    }
    Ok(kind)
}

fn small_sheet(random: &mut Random) -> Result<Kind, String> {
    let text = tree::text(&sheets::small(random));
    sheet_agrees(random, text.as_bytes())
}

fn faulty_sheet(random: &mut Random) -> Result<Kind, String> {
    let text = tree::text(&sheets::faulty(random));
    sheet_agrees(random, text.as_bytes())
}

fn some_sheet(random: &mut Random) -> String {
    let lines = if random.once_in(3) { sheets::faulty(random) } else { sheets::small(random) };
    tree::text(&lines)
}

fn damaged_sheet(random: &mut Random) -> Result<Kind, String> {
    let text = some_sheet(random);
    let damaged = sheets::damaged(random, &text);
    sheet_agrees(random, &damaged)
}

fn shuffled_sheet(random: &mut Random) -> Result<Kind, String> {
    let text = some_sheet(random);
    let shuffled = texts::shuffled(random, &text);
    sheet_agrees(random, shuffled.as_bytes())
}

fn first_line(random: &mut Random) -> Result<Kind, String> {
    let text = texts::first_line(random);
    sheet_agrees(random, text.as_bytes())
}

fn default_ranges(random: &mut Random) -> Result<Kind, String> {
    let text = texts::default_ranges(random);
    sheet_agrees(random, text.as_bytes())
}

fn spelled_numbers(random: &mut Random) -> Result<Kind, String> {
    let text = texts::spelled_numbers(random);
    sheet_agrees(random, text.as_bytes())
}

fn long_sheet(random: &mut Random) -> Result<Kind, String> {
    let text = texts::long(random);
    sheet_agrees(random, text.as_bytes())
}

fn full_sheet(random: &mut Random) -> Result<Kind, String> {
    let length = 4_093 + random.below(8);
    let text = texts::of_length(random, length);
    sheet_agrees(random, text.as_bytes())
}

fn any_bytes(random: &mut Random) -> Result<Kind, String> {
    let text = texts::any_bytes(random);
    sheet_agrees(random, &text)
}

/// Lists a little shorter, as long, and longer than they must be.
fn list_sizes(random: &mut Random) -> Result<Kind, String> {
    let text = tree::text(&sheets::small(random));
    let sizes = FULL.map(|full| match random.below(12) {
        0 => full - 1,
        1 => random.below(full),
        2 => full + 1 + random.below(9),
        _ => full,
    });
    match translate_agrees(text.as_bytes(), sizes)? {
        Err(fault) => Ok(Kind::Refused(fault.ground.number())),
        Ok(problem) => solve_agrees(random, &problem, QUICK),
    }
}

fn line_of_text(random: &mut Random) -> Result<Kind, String> {
    let length = if random.once_in(50) { random.below(5_000) } else { random.below(12) };
    let text: Vec<u8> = (0..length).map(|_| *random.pick(b"ab\n\n \r\0\xff")).collect();
    let line = match random.below(10) {
        0 => usize::MAX - random.below(3),
        1 => random.below(length + 2),
        _ => random.below(9),
    };
    line_agrees(&text, line)
}

/// The repository's own sheets, answered with the desk's budget.
pub fn files(seen: &mut BTreeMap<Kind, u64>) -> u64 {
    let folder = Path::new(env!("CARGO_MANIFEST_DIR")).join("../../crates/examples/data");
    let entries = std::fs::read_dir(folder).into_iter().flatten().flatten();
    let texts: Vec<Vec<u8>> =
        entries.filter_map(|entry| std::fs::read(entry.path()).ok()).collect();
    let mut differing = 0;
    let mut kinds = BTreeMap::new();
    for text in &texts {
        let random = &mut Random::new(0);
        match sheet_agrees(random, text).and_then(|kind| answer_agrees(text).map(|()| kind)) {
            Ok(kind) => *kinds.entry(kind).or_insert(0) += 1,
            Err(difference) => {
                differing += 1;
                println!("  the repository's sheets: {difference}");
            }
        }
    }
    report("the repository's sheets", texts.len() as u64, differing, &kinds);
    seen.extend(kinds);
    differing
}
