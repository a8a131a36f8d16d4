//! Compares the paper crate with exhaustive search, plain definitions and
//! direct evaluation, over fixed and random cases. Prints a line for each
//! group and ends with status 1 if anything differs.
//!
//! An optional argument gives the number of random cases in percent.

use std::process::ExitCode;

use brute::plain::{self, Outcome};
use brute::problems::{self, Problem};
use brute::random::Random;
use brute::tree::{self, Lists, Sheet};
use brute::{cases, exhaust, shape, sheets};
use paper::{Answer, Counts, Solved, Translated};
use paper::{FULL_LENGTHS, FULL_LITERALS, FULL_NAMES, FULL_PRIMITIVES, FULL_RANGES};

/// What buffers hold before a call.
const NOISE: i64 = 7_777_777;
const NOISE_BYTE: u8 = b'#';
/// How much longer than needed buffers are.
const SPARE: usize = 3;
const LARGE_BUDGET: i64 = 1_000_000_000;

fn main() -> ExitCode {
    let percent = std::env::args().nth(1).and_then(|text| text.parse().ok()).unwrap_or(100);
    let mut differing = fixed_cases();
    for (name, count, check) in [
        ("small problems against every point", 100_000, small_problem as Check),
        ("extreme problems against the plain definitions", 100_000, extreme_problem),
        ("damaged problems", 100_000, damaged_problem),
        ("arbitrary lists", 300_000, arbitrary_lists),
        ("leading numbers near their limits", 100_000, near_leading),
        ("small sheets against every assignment", 40_000, small_sheet),
        ("faulty sheets", 100_000, faulty_sheet),
        ("damaged sheets", 100_000, damaged_sheet),
        ("lines of texts", 100_000, line_of_text),
    ] {
        differing += group(name, count / 100 * percent, check);
    }
    if differing == 0 {
        println!("all alike");
        ExitCode::SUCCESS
    } else {
        println!("{differing} differ");
        ExitCode::FAILURE
    }
}

/// Runs one random case. Gives the kind of outcome it had, or what differs.
type Check = fn(&mut Random) -> Result<String, String>;

fn fixed_cases() -> usize {
    let cases = cases::all();
    let failed: Vec<_> = cases.iter().filter(|case| !case.passed).collect();
    println!("fixed cases: {}, {} differ", cases.len(), failed.len());
    for case in &failed {
        println!("  {}", case.name);
    }
    failed.len()
}

/// Runs a group, prints how often each kind of outcome came, and gives the
/// number of cases that differ.
fn group(name: &str, count: usize, check: Check) -> usize {
    let mut kinds = std::collections::BTreeMap::new();
    let mut differing = 0;
    for seed in 0..count {
        match check(&mut Random::new(seed as u64)) {
            Ok(kind) => *kinds.entry(kind).or_insert(0) += 1,
            Err(difference) => {
                differing += 1;
                if differing <= 3 {
                    println!("  {name}, seed {seed}: {difference}");
                }
            }
        }
    }
    let kinds: Vec<String> = kinds.iter().map(|(kind, count)| format!("{kind} {count}")).collect();
    println!("{name}: {count}, {differing} differ ({})", kinds.join(", "));
    differing
}

fn ensure(alike: bool, what: impl FnOnce() -> String) -> Result<(), String> {
    if alike {
        Ok(())
    } else {
        Err(what())
    }
}

/// Solves with noisy buffers of the right size and checks every rule about
/// them against what the plain definitions say.
fn agrees_with_plain(problem: &Problem, budget: i64) -> Result<plain::Run, String> {
    let wanted = plain::run(problem, budget);
    let depth = plain::depth(problem);
    let need = plain::need(problem);
    let mut point = vec![NOISE; problem.n()];
    let mut work = vec![NOISE; need + SPARE];
    let solved = paper::solve(
        &problem.ranges,
        &problem.primitives,
        &problem.lengths,
        &problem.literals,
        problem.leading,
        budget,
        &mut point,
        &mut work,
    );
    let (answer, values) = match &wanted.outcome {
        Outcome::None => (Answer::None, vec![NOISE; problem.n()]),
        Outcome::Found(point) => (Answer::Found, point.clone()),
        Outcome::Stopped(floor) => (Answer::Stopped, floor.clone()),
    };
    let expected = Solved { answer: Ok(answer), sweeps: wanted.sweeps };
    ensure(solved == expected, || format!("{problem:?} {budget}: {solved:?}, not {expected:?}"))?;
    ensure(point == values, || format!("{problem:?} {budget}: point {point:?}, not {values:?}"))?;
    let cleared = work[..need].iter().all(|&number| number == 0);
    let kept = work[need..].iter().all(|&number| number == NOISE);
    ensure(cleared && kept, || format!("{problem:?} {budget}: workspace {work:?}"))?;
    ensure(wanted.most_waiting <= depth, || format!("{problem:?}: more than D wait"))?;
    ensure(wanted.split as i64 <= problem.leading, || {
        format!("{problem:?}: a later one is split")
    })?;
    ensure(paper::workspace_need(&problem.ranges, problem.leading) == (depth, need), || {
        format!("{problem:?}: need")
    })?;
    Ok(wanted)
}

fn kind_of(outcome: &Outcome) -> &'static str {
    match outcome {
        Outcome::None => "none",
        Outcome::Found(_) => "found",
        Outcome::Stopped(_) => "stopped",
    }
}

fn small_problem(random: &mut Random) -> Result<String, String> {
    let problem = problems::small(random);
    let run = agrees_with_plain(&problem, LARGE_BUDGET)?;
    let found = match &run.outcome {
        Outcome::Found(point) => Some(point.clone()),
        _ => None,
    };
    let first = exhaust::first_solution(&problem);
    ensure(found == first, || format!("{problem:?}: {found:?}, not {first:?}"))?;
    let short = random.between(0, run.sweeps + 1);
    agrees_with_plain(&problem, short)?;
    Ok(kind_of(&run.outcome).to_string())
}

fn extreme_problem(random: &mut Random) -> Result<String, String> {
    let problem = problems::extreme(random);
    let budget = random.between(0, 120);
    let run = agrees_with_plain(&problem, budget)?;
    if let Outcome::Found(point) = &run.outcome {
        let satisfied = exhaust::satisfies(&problem, point);
        ensure(satisfied, || format!("{problem:?}: {point:?} is no solution"))?;
    }
    Ok(kind_of(&run.outcome).to_string())
}

fn damaged_problem(random: &mut Random) -> Result<String, String> {
    let problem =
        if random.once_in(2) { problems::small(random) } else { problems::extreme(random) };
    let need = plain::need(&problem);
    let case = problems::damaged(random, problem, need);
    let mut point = vec![NOISE; case.point];
    let mut work = vec![NOISE; case.work];
    let solved = paper::solve(
        &case.problem.ranges,
        &case.problem.primitives,
        &case.problem.lengths,
        &case.problem.literals,
        case.problem.leading,
        case.budget,
        &mut point,
        &mut work,
    );
    let expected = Solved { answer: Err(case.refusal), sweeps: 0 };
    ensure(solved == expected, || format!("{:?}: {solved:?}, not {expected:?}", case.problem))?;
    let untouched = point.iter().chain(&work).all(|&number| number == NOISE);
    ensure(untouched, || format!("{:?}: a refusal wrote", case.problem))?;
    Ok(case.refusal.to_string())
}

fn arbitrary_lists(random: &mut Random) -> Result<String, String> {
    let problem = problems::arbitrary(random);
    refused_or_run(random, &problem)
}

fn near_leading(random: &mut Random) -> Result<String, String> {
    let problem = problems::near_leading(random);
    refused_or_run(random, &problem)
}

/// Compares a problem that may be refused, with buffers that are mostly right.
fn refused_or_run(random: &mut Random, problem: &Problem) -> Result<String, String> {
    let budget = if random.once_in(20) { random.bits() as i64 } else { random.between(0, 40) };
    let need = paper::workspace_need(&problem.ranges, problem.leading).1;
    let size = problem.n() + random.below(20) / 19;
    let room = (need + SPARE).saturating_sub(random.below(10) / 9 * (SPARE + 1));
    if let Some(number) = plain::refusal(problem, budget, size, room) {
        let mut point = vec![NOISE; size];
        let mut work = vec![NOISE; room];
        let solved = paper::solve(
            &problem.ranges,
            &problem.primitives,
            &problem.lengths,
            &problem.literals,
            problem.leading,
            budget,
            &mut point,
            &mut work,
        );
        let expected = Solved { answer: Err(number), sweeps: 0 };
        ensure(solved == expected, || format!("{problem:?}: {solved:?}, not {expected:?}"))?;
        let untouched = point.iter().chain(&work).all(|&number| number == NOISE);
        ensure(untouched, || format!("{problem:?}: a refusal wrote"))?;
        return Ok(number.to_string());
    }
    let run = agrees_with_plain(problem, budget.min(1_000))?;
    Ok(kind_of(&run.outcome).to_string())
}

/// The lent lists of a translation, noisy before the call.
struct Lent {
    ranges: Vec<i64>,
    primitives: Vec<i64>,
    lengths: Vec<i64>,
    literals: Vec<i64>,
    names: Vec<u8>,
}

impl Lent {
    fn noisy() -> Lent {
        Lent {
            ranges: vec![NOISE; FULL_RANGES + SPARE],
            primitives: vec![NOISE; FULL_PRIMITIVES],
            lengths: vec![NOISE; FULL_LENGTHS + SPARE],
            literals: vec![NOISE; FULL_LITERALS],
            names: vec![NOISE_BYTE; FULL_NAMES + SPARE],
        }
    }

    fn translate(&mut self, sheet: &[u8]) -> Translated {
        paper::translate(
            sheet,
            &mut self.ranges,
            &mut self.primitives,
            &mut self.lengths,
            &mut self.literals,
            &mut self.names,
        )
    }

    /// Whether the fronts hold exactly these lists and the rest is noise.
    fn holds(&self, lists: &Lists) -> bool {
        let names: String = lists.names.iter().map(|name| format!("{name:8}")).collect();
        holds_front(&self.ranges, &lists.ranges, NOISE)
            && holds_front(&self.primitives, &lists.primitives, NOISE)
            && holds_front(&self.lengths, &lists.lengths, NOISE)
            && holds_front(&self.literals, &lists.literals, NOISE)
            && holds_front(&self.names, names.as_bytes(), NOISE_BYTE)
    }
}

fn holds_front<T: PartialEq>(list: &[T], front: &[T], noise: T) -> bool {
    list.starts_with(front) && list[front.len()..].iter().all(|number| *number == noise)
}

fn counts_of(lists: &Lists) -> Counts {
    Counts {
        quantities: lists.ranges.len() / 2,
        declared: lists.names.len(),
        primitives: lists.primitives.len() / 4,
        clauses: lists.lengths.len(),
        literals: lists.literals.len() / 3,
    }
}

/// Translates a sheet and compares with what its tree foretells.
fn agrees_with_tree(sheet: &Sheet) -> Result<Result<Lists, (u8, usize)>, String> {
    let text = tree::text(sheet);
    let wanted = if text.len() > 4_096 { Err((20, 0)) } else { tree::predict(sheet) };
    let mut lent = Lent::noisy();
    let translated = lent.translate(text.as_bytes());
    let (expected, contents) = match &wanted {
        Ok(lists) => (Translated::Accepted(counts_of(lists)), lists.clone()),
        Err((number, line)) => {
            (Translated::Refused { number: *number, line: *line }, Lists::default())
        }
    };
    ensure(translated == expected, || format!("{text}{translated:?}, not {expected:?}"))?;
    ensure(lent.holds(&contents), || format!("{text}the lists differ from {contents:?}"))?;
    Ok(wanted)
}

fn as_problem(lists: &Lists) -> Problem {
    Problem {
        ranges: lists.ranges.clone(),
        primitives: lists.primitives.clone(),
        lengths: lists.lengths.clone(),
        literals: lists.literals.clone(),
        leading: lists.names.len() as i64,
    }
}

fn small_sheet(random: &mut Random) -> Result<String, String> {
    let sheet = sheets::small(random);
    let lists = match agrees_with_tree(&sheet)? {
        Ok(lists) => lists,
        Err((number, _)) => return Ok(format!("refused {number}")),
    };
    let text = tree::text(&sheet);
    let run = agrees_with_plain(&as_problem(&lists), LARGE_BUDGET)?;
    let declared = lists.names.len();
    let first = exhaust::first_point(&lists.ranges[..2 * declared], |point| {
        tree::obeys(&sheet, &|name| {
            lists.names.iter().position(|known| known == name).map_or(0, |place| point[place])
        })
    });
    let found = match &run.outcome {
        Outcome::Found(point) => Some(point[..declared].to_vec()),
        _ => None,
    };
    ensure(found == first, || format!("{text}{found:?}, not {first:?}"))?;
    let desk = String::from_utf8_lossy(&paper::answer(text.as_bytes())).into_owned();
    let wanted = desk_output(&lists);
    ensure(desk == wanted, || format!("{text}desk:\n{desk}not:\n{wanted}"))?;
    Ok(kind_of(&run.outcome).to_string())
}

/// What the desk must print for an accepted sheet, by the plain definitions.
fn desk_output(lists: &Lists) -> String {
    let problem = as_problem(lists);
    if plain::need(&problem) > paper::DESK_WORKSPACE {
        return "REFUSED 7 0\n".to_string();
    }
    let run = plain::run(&problem, paper::DESK_BUDGET);
    let (word, values) = match run.outcome {
        Outcome::None => ("NONE", Vec::new()),
        Outcome::Found(point) => ("FOUND", point),
        Outcome::Stopped(floor) => ("STOP", floor),
    };
    let named = lists.names.iter().zip(values);
    named.fold(format!("{word} {}\n", run.sweeps), |text, (name, value)| {
        text + &format!("{name} {value}\n")
    })
}

fn faulty_sheet(random: &mut Random) -> Result<String, String> {
    let sheet = sheets::faulty(random);
    match agrees_with_tree(&sheet)? {
        Ok(lists) => {
            agrees_with_plain(&as_problem(&lists), random.between(0, 30))?;
            Ok("accepted".to_string())
        }
        Err((number, line)) => {
            let desk = paper::answer(tree::text(&sheet).as_bytes());
            let wanted = format!("REFUSED {number} {line}\n");
            ensure(desk == wanted.as_bytes(), || format!("desk, not {wanted}"))?;
            Ok(number.to_string())
        }
    }
}

/// A text damaged at random. Its form foretells refusals 20 to 24; a higher
/// one may only come in an earlier line. A refusal writes nothing, and an
/// accepted problem is sound.
fn damaged_sheet(random: &mut Random) -> Result<String, String> {
    let sheet = if random.once_in(3) { sheets::faulty(random) } else { sheets::small(random) };
    let text = sheets::damaged(random, &tree::text(&sheet));
    let shown = || String::from_utf8_lossy(&text).into_owned();
    let form = shape::fault(&text);
    let mut lent = Lent::noisy();
    match lent.translate(&text) {
        Translated::Refused { number, line } => {
            ensure(lent.holds(&Lists::default()), || format!("{}wrote", shown()))?;
            let fits = match (number, form) {
                (20..=24, _) => form == Some((number, line)),
                (25..=29, Some((_, later))) => 2 <= line && line < later,
                (25..=29, None) => 2 <= line && line <= text.split(|&byte| byte == b'\n').count(),
                _ => number == 30 && line == 0 && form.is_none(),
            };
            ensure(fits, || format!("{}{number} in line {line}, form {form:?}", shown()))?;
            Ok(number.to_string())
        }
        Translated::Accepted(counts) => {
            ensure(form.is_none(), || format!("{}accepted, not {form:?}", shown()))?;
            let problem = Problem {
                ranges: lent.ranges[..2 * counts.quantities].to_vec(),
                primitives: lent.primitives[..4 * counts.primitives].to_vec(),
                lengths: lent.lengths[..counts.clauses].to_vec(),
                literals: lent.literals[..3 * counts.literals].to_vec(),
                leading: counts.declared as i64,
            };
            agrees_with_plain(&problem, random.between(0, 30)).map_err(|error| shown() + &error)?;
            Ok("accepted".to_string())
        }
    }
}

fn line_of_text(random: &mut Random) -> Result<String, String> {
    let text: Vec<u8> = (0..random.below(12)).map(|_| *random.pick(b"ab\n\n ")).collect();
    let line = random.below(9);
    let span = paper::line_span(&text, line);
    let mut lines = spans(&text);
    let nowhere = (text.len(), text.len());
    let wanted =
        if line == 0 || line > lines.len() { nowhere } else { lines.swap_remove(line - 1) };
    ensure(span == wanted, || format!("{text:?} {line}: {span:?}, not {wanted:?}"))?;
    Ok(if wanted == nowhere { "nowhere" } else { "there" }.to_string())
}

/// The spans of all lines of a text, byte by byte.
fn spans(text: &[u8]) -> Vec<(usize, usize)> {
    let mut spans = Vec::new();
    let mut start = 0;
    for (place, &byte) in text.iter().enumerate() {
        if byte == b'\n' {
            spans.push((start, place));
            start = place + 1;
        }
    }
    if start < text.len() {
        spans.push((start, text.len()));
    }
    spans
}
