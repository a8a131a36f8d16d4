//! The same call on both sides, and what must agree.

use std::fmt;

use brute::problems::Problem;
use brute::random::Random;
use ularimpong::calls::{self, Counts, Fault};
use ularimpong::Ground;

use crate::guarded::{difference, Guarded};

/// What a case came to, to count by.
#[derive(Clone, Copy, PartialEq, Eq, PartialOrd, Ord)]
pub enum Kind {
    None,
    Found,
    Stopped,
    Refused(usize),
    Line,
    NoLine,
}

impl Kind {
    /// Every kind that a full run must meet.
    pub fn expected() -> impl Iterator<Item = Kind> {
        let refusals = Ground::all().map(|ground| Kind::Refused(ground.number()));
        [Kind::None, Kind::Found, Kind::Stopped].into_iter().chain(refusals)
    }
}

impl fmt::Display for Kind {
    fn fmt(&self, f: &mut fmt::Formatter) -> fmt::Result {
        match self {
            Kind::None => write!(f, "none"),
            Kind::Found => write!(f, "found"),
            Kind::Stopped => write!(f, "stopped"),
            Kind::Refused(number) => write!(f, "refused {number}:"),
            Kind::Line => write!(f, "a line"),
            Kind::NoLine => write!(f, "no line"),
        }
    }
}

fn same<T: PartialEq + fmt::Debug>(what: &str, library: T, paper: T) -> Result<(), String> {
    if library == paper {
        Ok(())
    } else {
        Err(format!("{what} is {library:?}, not {paper:?}"))
    }
}

/// Everything that a solve is handed but the contents of its buffers.
#[derive(Debug)]
pub struct Given<'a> {
    pub problem: &'a Problem,
    pub budget: i64,
    pub point: usize,
    pub work: usize,
}

impl Given<'_> {
    pub fn agrees(&self) -> Result<Kind, String> {
        self.compared().map_err(|difference| format!("{difference} for {self:?}"))
    }

    fn compared(&self) -> Result<Kind, String> {
        let Problem { ranges, primitives, lengths, literals, leading } = self.problem;
        let (leading, budget) = (*leading, self.budget);
        let mut ours = (Guarded::numbers(self.point), Guarded::numbers(self.work));
        let mut theirs = ours.clone();
        let (point, work) = (ours.0.lent(), ours.1.lent());
        let library =
            calls::solve(ranges, primitives, lengths, literals, leading, budget, point, work);
        let (point, work) = (theirs.0.lent(), theirs.1.lent());
        let paper =
            paper::solve(ranges, primitives, lengths, literals, leading, budget, point, work);
        let answer = library.answer.map_err(Ground::number);
        same("the answer", answer, paper.answer.map(as_ours).map_err(usize::from))?;
        same("the sweep count", library.sweeps as i64, paper.sweeps)?;
        difference("point", &ours.0, &theirs.0)?;
        difference("work", &ours.1, &theirs.1)?;
        Ok(match answer {
            Ok(calls::Answer::None) => Kind::None,
            Ok(calls::Answer::Found) => Kind::Found,
            Ok(calls::Answer::Stopped) => Kind::Stopped,
            Err(number) => Kind::Refused(number),
        })
    }
}

fn as_ours(answer: paper::Answer) -> calls::Answer {
    match answer {
        paper::Answer::None => calls::Answer::None,
        paper::Answer::Found => calls::Answer::Found,
        paper::Answer::Stopped => calls::Answer::Stopped,
    }
}

/// A solve with buffers of the right size, the workspace sometimes longer.
pub fn solve_agrees(random: &mut Random, problem: &Problem, budget: i64) -> Result<Kind, String> {
    let need = paper::workspace_need(&problem.ranges, problem.leading).1;
    let work = need + random.below(2) * random.below(9);
    Given { problem, budget, point: problem.n(), work }.agrees()
}

/// The sizes of the lists lent to a translation: ranges, primitives, lengths,
/// literals, name bytes.
pub type Sizes = [usize; 5];

pub const FULL: Sizes = [
    calls::FULL_RANGES,
    calls::FULL_PRIMITIVES,
    calls::FULL_LENGTHS,
    calls::FULL_LITERALS,
    calls::FULL_NAMES,
];

/// The lists lent to a translation.
#[derive(Clone)]
struct Lent {
    ranges: Guarded<i64>,
    primitives: Guarded<i64>,
    lengths: Guarded<i64>,
    literals: Guarded<i64>,
    names: Guarded<u8>,
}

impl Lent {
    fn new([ranges, primitives, lengths, literals, names]: Sizes) -> Lent {
        Lent {
            ranges: Guarded::numbers(ranges),
            primitives: Guarded::numbers(primitives),
            lengths: Guarded::numbers(lengths),
            literals: Guarded::numbers(literals),
            names: Guarded::bytes(names),
        }
    }

    fn differs(&self, paper: &Lent) -> Result<(), String> {
        difference("ranges", &self.ranges, &paper.ranges)?;
        difference("primitives", &self.primitives, &paper.primitives)?;
        difference("lengths", &self.lengths, &paper.lengths)?;
        difference("literals", &self.literals, &paper.literals)?;
        difference("names", &self.names, &paper.names)
    }

    fn problem(&self, counts: Counts) -> Problem {
        Problem {
            ranges: self.ranges.front(2 * counts.quantities).to_vec(),
            primitives: self.primitives.front(4 * counts.primitives).to_vec(),
            lengths: self.lengths.front(counts.clauses).to_vec(),
            literals: self.literals.front(3 * counts.literals).to_vec(),
            leading: counts.declared as i64,
        }
    }
}

/// Translates a text on both sides, with lists of these sizes. Gives the
/// problem of an accepted sheet, with its declared quantities leading.
pub fn translate_agrees(text: &[u8], sizes: Sizes) -> Result<Result<Problem, Fault>, String> {
    let mut ours = Lent::new(sizes);
    let mut theirs = ours.clone();
    let library = calls::translate(
        text,
        ours.ranges.lent(),
        ours.primitives.lent(),
        ours.lengths.lent(),
        ours.literals.lent(),
        ours.names.lent(),
    );
    let paper = paper::translate(
        text,
        theirs.ranges.lent(),
        theirs.primitives.lent(),
        theirs.lengths.lent(),
        theirs.literals.lent(),
        theirs.names.lent(),
    );
    same("the translation", library, as_result(paper))
        .map_err(|difference| shown(text, &difference))?;
    ours.differs(&theirs).map_err(|difference| shown(text, &difference))?;
    Ok(library.map(|counts| ours.problem(counts)))
}

fn as_result(translated: paper::Translated) -> Result<Counts, Fault> {
    match translated {
        paper::Translated::Refused { number, line } => {
            Err(Fault { ground: Ground::from_number(usize::from(number)), line })
        }
        paper::Translated::Accepted(counts) => Ok(Counts {
            quantities: counts.quantities,
            declared: counts.declared,
            primitives: counts.primitives,
            clauses: counts.clauses,
            literals: counts.literals,
        }),
    }
}

/// The desk's output on both sides: its bytes, and the rest of the buffer.
pub fn answer_agrees(text: &[u8]) -> Result<(), String> {
    let mut ours = Guarded::bytes(calls::OUTPUT);
    let mut theirs = ours.clone();
    let Ok(out) = ours.lent().try_into() else { return Err("no buffer".to_string()) };
    let length = calls::answer(text, out);
    let output = paper::answer(text);
    same("the output's length", length, output.len()).map_err(|error| shown(text, &error))?;
    theirs.lent()[..output.len()].copy_from_slice(&output);
    difference("output", &ours, &theirs).map_err(|error| shown(text, &error))
}

/// One line of a text on both sides.
pub fn line_agrees(text: &[u8], line: usize) -> Result<Kind, String> {
    let span = calls::line_span(text, line);
    let (start, end) = paper::line_span(text, line);
    same("the line", span, start..end).map_err(|error| shown(text, &error))?;
    Ok(if start == text.len() { Kind::NoLine } else { Kind::Line })
}

/// A difference with the text that shows it, as one line.
fn shown(text: &[u8], difference: &str) -> String {
    format!("{difference} for \"{}\"", text.escape_ascii())
}
