//! The tables of problems that the gate's program `trials` reads, those made by
//! hand among them, and the sheets of the desk hold of the `paper` crate.
//! docs/TRIED.md says what their lines are.

use paper::{answer, solve, Answer};

const DATA: &str = concat!(env!("CARGO_MANIFEST_DIR"), "/../../crates/trials/data/");
const SHEETS: &str = concat!(env!("CARGO_MANIFEST_DIR"), "/../../crates/examples/data/");
/// What the buffers hold before a call.
const NOISE: i64 = 7_777_777;
/// The numbers of the answers that are no refusal.
const NONE: i64 = 50;
const FOUND: i64 = 51;
const STOPPED: i64 = 52;
/// How many more numbers of workspace are lent to a whole problem than cleared.
const MORE: usize = 3;

/// Everything that a solve is handed.
struct Given {
    ranges: Vec<i64>,
    primitives: Vec<i64>,
    lengths: Vec<i64>,
    literals: Vec<i64>,
    leading: i64,
    budget: i64,
    point: usize,
    work: usize,
}

/// What a line asks for; `values` is what the point buffer holds in the end.
#[derive(Debug, PartialEq, Eq)]
struct Outcome {
    number: i64,
    sweeps: i64,
    cleared: usize,
    values: Vec<i64>,
}

impl Given {
    /// Solves; the workspace must be 0 at its front and otherwise as it came.
    fn solved(&self) -> Outcome {
        let mut point = vec![NOISE; self.point];
        let mut work = vec![NOISE; self.work];
        let solved = solve(
            &self.ranges,
            &self.primitives,
            &self.lengths,
            &self.literals,
            self.leading,
            self.budget,
            &mut point,
            &mut work,
        );
        let number = match solved.answer {
            Err(number) => i64::from(number),
            Ok(Answer::None) => NONE,
            Ok(Answer::Found) => FOUND,
            Ok(Answer::Stopped) => STOPPED,
        };
        let cleared = work.iter().take_while(|&&number| number == 0).count();
        assert!(work[cleared..].iter().all(|&number| number == NOISE));
        Outcome { number, sweeps: solved.sweeps, cleared, values: point }
    }
}

fn lines(name: &str) -> Vec<Vec<i64>> {
    let text = std::fs::read_to_string(DATA.to_string() + name).expect("a table");
    let number = |word: &str| word.parse().expect("a number");
    text.lines().map(|line| line.split(' ').map(number).collect()).collect()
}

/// A line of whole problems: answer, sweeps, cleared, leading number, budget,
/// four counts, four lists, values.
fn whole(line: &[i64]) -> (Given, Outcome) {
    let count = |place: usize| line[place] as usize;
    let mut rest = &line[9..];
    let mut list = |length: usize| {
        let (list, behind) = rest.split_at(length);
        rest = behind;
        list.to_vec()
    };
    let given = Given {
        ranges: list(2 * count(5)),
        primitives: list(4 * count(6)),
        lengths: list(count(7)),
        literals: list(3 * count(8)),
        leading: line[3],
        budget: line[4],
        point: count(5),
        work: count(2) + MORE,
    };
    let values = if line[0] <= NONE { vec![NOISE; count(5)] } else { list(count(5)) };
    assert!(rest.is_empty());
    (given, Outcome { number: line[0], sweeps: line[1], cleared: count(2), values })
}

/// A line of edited lists: answer, cleared, four lengths, leading number,
/// budget, lengths of the buffers, edits. Sweeps are only asked to be 0 after a
/// refusal; the values of found and stopped are the low ends.
fn edited(line: &[i64]) -> (Given, Outcome) {
    let base = |length: i64, step: usize, numbers: &[i64]| -> Vec<i64> {
        (0..length as usize).map(|place| numbers[place % step]).collect()
    };
    let mut lists = [
        base(line[2], 2, &[0, 1]),
        base(line[3], 4, &[1, 0, 0, 0]),
        base(line[4], 1, &[4]),
        base(line[5], 3, &[0, 0, 1]),
    ];
    for edit in line[10..].chunks_exact(3) {
        lists[edit[0] as usize][edit[1] as usize] = edit[2];
    }
    let [ranges, primitives, lengths, literals] = lists;
    let (point, work) = (line[8] as usize, line[9] as usize);
    let (leading, budget) = (line[6], line[7]);
    let lows = ranges.chunks(2).map(|range| range[0]).collect();
    let values = if line[0] <= NONE { vec![NOISE; point] } else { lows };
    let given = Given { ranges, primitives, lengths, literals, leading, budget, point, work };
    let sweeps = if line[0] < NONE { 0 } else { given.solved().sweeps };
    (given, Outcome { number: line[0], sweeps, cleared: line[1] as usize, values })
}

fn compare(name: &str, read: impl Fn(&[i64]) -> (Given, Outcome)) {
    let lines = lines(name);
    assert!(lines.len() > 10);
    for (case, line) in lines.iter().enumerate() {
        let (given, wanted) = read(line);
        assert_eq!(given.solved(), wanted, "{name}, case {case}: {line:?}");
    }
}

#[test]
fn refusals() {
    compare("refusals.txt", edited);
}

#[test]
fn buffers() {
    compare("buffers.txt", edited);
}

#[test]
fn counted_by_hand() {
    compare("counted.txt", whole);
}

#[test]
fn pinned() {
    compare("pins.txt", whole);
}

/// A line has the name of a sheet's file, a bar, and the desk's output with a
/// slash for each LF.
#[test]
fn sheets_of_the_desk() {
    let read = |name: &str| std::fs::read_to_string(SHEETS.to_string() + name).expect("a file");
    let table = read("desk.txt");
    for line in table.lines() {
        let (name, output) = line.split_once('|').expect("a bar");
        let answered = String::from_utf8(answer(read(name).as_bytes())).expect("plain text");
        assert_eq!(answered, output.replace('/', "\n"), "{name}");
    }
    let files = std::fs::read_dir(SHEETS).expect("a folder").flatten();
    let is_sheet = |file: &std::fs::DirEntry| file.file_name().to_string_lossy().ends_with(".rul");
    assert_eq!(table.lines().count(), files.filter(is_sheet).count());
}
