//! One case: what is asked, what the `paper` crate answers, and which slips change that.

use brute::plain::Outcome;
use brute::problems::{self, Problem};
use brute::random::Random;
use brute::sheets;
use brute::tree::{self, Sheet};
use paper::{Answer, Translated};

use crate::ground;
use crate::model;
use crate::short;
use crate::slip::{Slip, ALL};
use crate::translation::{self, Refusal};

/// The budget of the problems that are to be decided.
const LARGE_BUDGET: i64 = 1_000_000_000;
/// No case that needs more sweeps, or more bytes to write, is worth its time.
const MOST_SWEEPS: i64 = 300;
const MOST_BYTES: usize = 170;
/// The gate has room for no longer lists of a problem.
const MOST_PRIMITIVES: usize = 32;
const MOST_LITERALS: usize = 64;
/// How many more numbers of workspace the gate lends than are cleared.
const MORE: usize = 3;
/// What the point buffer holds before a call.
const NOISE: i64 = 7_777_777;

/// The kind of an answer; a refusal has its number.
#[derive(Clone, Copy, Debug, PartialEq, Eq)]
pub enum Kind {
    None,
    Found,
    Stopped,
    Refused(u8),
}

/// What is seen of an answer: its kind, the sweeps or a refusal's line, and
/// the values that are shown.
#[derive(Debug, PartialEq, Eq)]
struct Seen {
    kind: Kind,
    count: i64,
    values: Vec<i64>,
}

/// A case as its line in the data file, the kind of its answer, and for each
/// slip whether it changes the answer, the count, the point or the floor.
pub struct Case {
    pub line: String,
    pub kind: Kind,
    pub changed: Vec<bool>,
    pub lists: Option<Lists>,
}

/// The lists of a case's sheet: a line of their own in another data file, and
/// for each slip whether it changes them.
pub struct Lists {
    pub line: String,
    pub changed: Vec<bool>,
}

/// The problem of a seed, if it is fit to be kept.
pub fn problem(seed: u64) -> Option<Case> {
    let mut random = Random::new(seed);
    let mut problem = match random.below(8) {
        0 | 1 => problems::extreme(&mut random),
        2 => problems::near_leading(&mut random),
        _ => problems::small(&mut random),
    };
    if random.once_in(4) {
        repeat_a_literal(&mut random, &mut problem);
    }
    let (_, needed) = model::run(&problem, MOST_SWEEPS, Slip::None);
    let budget = match random.below(3) {
        0 => random.between(0, needed),
        1 => needed,
        _ if needed < MOST_SWEEPS => LARGE_BUDGET,
        _ => needed,
    };
    let given = Given { problem, budget };
    let (right, cleared) = given.solved();
    let line = given.line(&right, cleared);
    // A slipped search that goes on past the right count is not followed to its end.
    let followed = budget.min(right.count + 1);
    let slipped = |slip| given.slipped(cleared + MORE, followed, slip);
    let changed = changed(&right, slipped);
    let Problem { primitives, literals, .. } = &given.problem;
    let is_fit = line.len() <= MOST_BYTES
        && primitives.len() <= MOST_PRIMITIVES
        && literals.len() <= MOST_LITERALS;
    is_fit.then_some(Case { line, kind: right.kind, changed, lists: None })
}

/// The sheet of a seed, if it is fit to be kept.
pub fn sheet(seed: u64) -> Option<Case> {
    let mut random = Random::new(seed);
    let is_short = !random.once_in(3);
    let sheet = if is_short { short::sheet(&mut random) } else { sheets::small(&mut random) };
    let text = tree::text(&sheet);
    let translated = |slip| translation::problem(&sheet, slip);
    let (lists, names) = read(&text);
    assert_eq!(lists, translated(Slip::None), "{text}");
    let right = answered(&sheet, names.len(), MOST_SWEEPS, Slip::None);
    if right.kind == Kind::Stopped || text.len() > MOST_BYTES {
        return None;
    }
    let slipped = |slip| answered(&sheet, names.len(), right.count + 1, slip);
    Some(Case {
        line: sheet_line(&text, &names, &right),
        kind: right.kind,
        changed: changed(&right, slipped),
        lists: Some(Lists {
            line: lists_line(&text, &lists, names.len()),
            changed: changed(&lists, translated),
        }),
    })
}

/// The problem and the names that the `paper` crate makes of a sheet, or its
/// refusal and no names.
fn read(text: &str) -> (Result<Problem, Refusal>, Vec<String>) {
    let mut ranges = vec![0; paper::FULL_RANGES];
    let mut primitives = vec![0; paper::FULL_PRIMITIVES];
    let mut lengths = vec![0; paper::FULL_LENGTHS];
    let mut literals = vec![0; paper::FULL_LITERALS];
    let mut names = vec![0; paper::FULL_NAMES];
    let translated = paper::translate(
        text.as_bytes(),
        &mut ranges,
        &mut primitives,
        &mut lengths,
        &mut literals,
        &mut names,
    );
    let counts = match translated {
        Translated::Accepted(counts) => counts,
        Translated::Refused { number, line } => return (Err((number, line)), Vec::new()),
    };
    ranges.truncate(2 * counts.quantities);
    primitives.truncate(4 * counts.primitives);
    lengths.truncate(counts.clauses);
    literals.truncate(3 * counts.literals);
    let name = |name: &[u8]| String::from_utf8_lossy(name).trim_end().to_string();
    let names = names.chunks(8).take(counts.declared).map(name).collect();
    let leading = counts.declared as i64;
    (Ok(Problem { ranges, primitives, lengths, literals, leading }), names)
}

/// What the desk makes of a sheet, with a budget of its own and a slip.
fn answered(sheet: &Sheet, declared: usize, budget: i64, slip: Slip) -> Seen {
    let problem = match translation::problem(sheet, slip) {
        Err((number, line)) => return Seen::refused(number, line),
        Ok(problem) => problem,
    };
    match ground::refusal(&problem, paper::DESK_WORKSPACE, slip) {
        Some(number) => Seen::refused(number, 0),
        None => Seen::new(&model::run(&problem, budget, slip), declared),
    }
}

/// Puts a literal of a clause behind it once more.
fn repeat_a_literal(random: &mut Random, problem: &mut Problem) {
    let Some(last) = problem.lengths.last_mut().filter(|length| **length > 0) else {
        return;
    };
    let place = problem.literals.len() - 3 * (1 + random.below(*last as usize));
    *last += 1;
    let literal: Vec<i64> = problem.literals[place..place + 3].to_vec();
    problem.literals.extend(literal);
}

type Run = (Outcome, i64);

/// A problem and its budget.
struct Given {
    problem: Problem,
    budget: i64,
}

impl Given {
    /// What the `paper` crate answers, and how many numbers of the workspace are
    /// cleared then. A refused problem is lent no more than the gate lends it.
    fn solved(&self) -> (Seen, usize) {
        let Given { problem, budget } = self;
        let is_refused = ground::refusal(problem, usize::MAX, Slip::None).is_some();
        let cleared = if is_refused { 0 } else { ground::need(problem, Slip::None) };
        let mut point = vec![NOISE; problem.n()];
        let mut work = vec![NOISE; cleared + MORE];
        let solved = paper::solve(
            &problem.ranges,
            &problem.primitives,
            &problem.lengths,
            &problem.literals,
            problem.leading,
            *budget,
            &mut point,
            &mut work,
        );
        let seen = match solved.answer {
            Ok(Answer::None) => Seen::new(&(Outcome::None, solved.sweeps), 0),
            Ok(Answer::Found) => Seen::new(&(Outcome::Found(point), solved.sweeps), problem.n()),
            Ok(Answer::Stopped) => {
                Seen::new(&(Outcome::Stopped(point), solved.sweeps), problem.n())
            }
            Err(number) => Seen::refused(number, 0),
        };
        let without_slip = self.slipped(cleared + MORE, *budget, Slip::None);
        assert_eq!(seen, without_slip, "{problem:?} {budget}");
        assert!(work[..cleared].iter().all(|&number| number == 0), "{problem:?} {budget}");
        assert!(work[cleared..].iter().all(|&number| number == NOISE), "{problem:?} {budget}");
        (seen, cleared)
    }

    /// What the model with a slip answers with so much workspace.
    fn slipped(&self, lent: usize, budget: i64, slip: Slip) -> Seen {
        match ground::refusal(&self.problem, lent, slip) {
            Some(number) => Seen::refused(number, 0),
            None => Seen::new(&model::run(&self.problem, budget, slip), self.problem.n()),
        }
    }

    /// The answer's number (50 none, 51 found, 52 stopped, else a refusal's),
    /// sweeps, numbers of workspace cleared, leading number, budget, the numbers
    /// of quantities, primitives, clauses and literals; then the ranges,
    /// primitives, lengths and literals, and the values of found and stopped.
    fn line(&self, seen: &Seen, cleared: usize) -> String {
        let Problem { ranges, primitives, lengths, literals, leading } = &self.problem;
        let number = match seen.kind {
            Kind::None => 50,
            Kind::Found => 51,
            Kind::Stopped => 52,
            Kind::Refused(number) => i64::from(number),
        };
        let mut numbers = vec![number, seen.count, cleared as i64, *leading, self.budget];
        let counts = [ranges.len() / 2, primitives.len() / 4, lengths.len(), literals.len() / 3];
        numbers.extend(counts.map(|count| count as i64));
        for list in [ranges, primitives, lengths, literals, &seen.values] {
            numbers.extend(list);
        }
        spaced(&numbers)
    }
}

/// For each slip, whether it makes something else.
fn changed<T: PartialEq>(right: &T, slipped: impl Fn(Slip) -> T) -> Vec<bool> {
    ALL.iter().map(|&(slip, _)| slipped(slip) != *right).collect()
}

impl Seen {
    /// What is seen of a run that shows so many values.
    fn new((outcome, sweeps): &Run, shown: usize) -> Seen {
        let (kind, values) = match outcome {
            Outcome::None => (Kind::None, &[][..]),
            Outcome::Found(point) => (Kind::Found, &point[..]),
            Outcome::Stopped(floor) => (Kind::Stopped, &floor[..]),
        };
        Seen { kind, count: *sweeps, values: values.iter().copied().take(shown).collect() }
    }

    fn refused(number: u8, line: usize) -> Seen {
        Seen { kind: Kind::Refused(number), count: line as i64, values: Vec::new() }
    }
}

/// The sheet, a bar, and what the desk prints, with a slash for each LF.
fn sheet_line(text: &str, names: &[String], seen: &Seen) -> String {
    let shown = match seen.kind {
        Kind::None => format!("NONE {}\n", seen.count),
        Kind::Found => format!("FOUND {}\n", seen.count),
        Kind::Stopped => format!("STOP {}\n", seen.count),
        Kind::Refused(number) => format!("REFUSED {number} {}\n", seen.count),
    };
    let shown = names
        .iter()
        .zip(&seen.values)
        .fold(shown, |shown, (name, value)| shown + &format!("{name} {value}\n"));
    assert_eq!(shown.as_bytes(), paper::answer(text.as_bytes()), "{text}");
    format!("{text}|{shown}").replace('\n', "/")
}

/// The sheet, a bar, and a refusal's number and line; or 0, the counts of
/// quantities, declared quantities, primitives, clauses and literals, and the
/// four lists.
fn lists_line(text: &str, lists: &Result<Problem, Refusal>, declared: usize) -> String {
    let numbers = match lists {
        Err((number, line)) => vec![i64::from(*number), *line as i64],
        Ok(problem) => {
            let Problem { ranges, primitives, lengths, literals, .. } = problem;
            let counts =
                [problem.n(), declared, primitives.len() / 4, lengths.len(), literals.len() / 3];
            let mut numbers = vec![0];
            numbers.extend(counts.map(|count| count as i64));
            for list in [ranges, primitives, lengths, literals] {
                numbers.extend(list);
            }
            numbers
        }
    };
    text.replace('\n', "/") + "|" + &spaced(&numbers)
}

fn spaced(numbers: &[i64]) -> String {
    numbers.iter().map(i64::to_string).collect::<Vec<_>>().join(" ")
}

#[cfg(test)]
mod tests {
    use super::*;

    /// Making a case asserts that the model without a slip and the `paper`
    /// crate agree on it.
    #[test]
    fn without_a_slip_the_model_agrees() {
        let kept = (0..300).filter(|&seed| problem(seed).is_some() | sheet(seed).is_some());
        assert!(kept.count() > 200);
    }
}
