//! Measures the proved library against the paper crate in one run, on the same
//! problems and sheets: processor time, the best of nine, in turns.
//!
//! Prints tables in the form of docs/BENCHMARKS.md. `bench WORDS` measures only
//! the problems whose name has these words.

mod clock;
mod measure;
mod process;
mod subjects;

use std::path::Path;
use std::process::ExitCode;

use brute::problems::Problem;
use measure::{duel, Times};
use subjects::{Group, Subject};
use ularimpong::calls;

/// The sheet that whole programs are measured with.
const TYPICAL: &str = "classic.rul";

fn main() -> ExitCode {
    let words = std::env::args().nth(1);
    let mut subjects = subjects::made();
    subjects.extend(subjects::sheets());
    subjects.retain(|subject| words.as_ref().is_none_or(|words| subject.name.contains(words)));
    match solves(&subjects) {
        Err(difference) => {
            println!("{difference}");
            ExitCode::FAILURE
        }
        Ok(measured) => {
            if words.is_none() {
                sums(&subjects, &measured);
                sheets();
                programs();
            }
            ExitCode::SUCCESS
        }
    }
}

/// The table of solves. Both rivals must come to the same answer.
fn solves(subjects: &[Subject]) -> Result<Vec<Times>, String> {
    println!("| problem | sweeps | library, sweeps/s | paper, sweeps/s | library/paper |");
    println!("|---|---:|---:|---:|---:|");
    let mut measured = Vec::new();
    for subject in subjects {
        let sweeps = agreed_sweeps(subject)?;
        let times = solve_times(subject);
        println!(
            "| {} | {sweeps} | {:.0} | {:.0} | {:.2} |",
            subject.name,
            sweeps as f64 / times.library,
            sweeps as f64 / times.paper,
            times.ratio()
        );
        measured.push(times);
    }
    println!();
    Ok(measured)
}

fn buffers(subject: &Subject) -> (Vec<i64>, Vec<i64>) {
    let need = paper::workspace_need(&subject.problem.ranges, subject.problem.leading).1;
    (vec![0; subject.problem.n()], vec![0; need])
}

fn library_solve(subject: &Subject, point: &mut [i64], work: &mut [i64]) -> calls::Solved {
    let Problem { ranges, primitives, lengths, literals, leading } = &subject.problem;
    calls::solve(ranges, primitives, lengths, literals, *leading, subject.budget, point, work)
}

fn paper_solve(subject: &Subject, point: &mut [i64], work: &mut [i64]) -> paper::Solved {
    let Problem { ranges, primitives, lengths, literals, leading } = &subject.problem;
    paper::solve(ranges, primitives, lengths, literals, *leading, subject.budget, point, work)
}

fn agreed_sweeps(subject: &Subject) -> Result<usize, String> {
    let (mut point, mut work) = buffers(subject);
    let (mut paper_point, mut paper_work) = buffers(subject);
    let library = library_solve(subject, &mut point, &mut work);
    let paper = paper_solve(subject, &mut paper_point, &mut paper_work);
    let agree = library.sweeps as i64 == paper.sweeps
        && library.answer.is_ok()
        && paper.answer.is_ok()
        && point == paper_point;
    if agree {
        Ok(library.sweeps)
    } else {
        Err(format!("{}: {library:?} and {paper:?} differ, or refuse", subject.name))
    }
}

fn solve_times(subject: &Subject) -> Times {
    let (mut point, mut work) = buffers(subject);
    let (mut paper_point, mut paper_work) = buffers(subject);
    duel(
        || {
            library_solve(subject, &mut point, &mut work);
        },
        || {
            paper_solve(subject, &mut paper_point, &mut paper_work);
        },
    )
}

/// The ratios over all problems of a kind: the mean of the ratios (as factors,
/// so the geometric one).
fn sums(subjects: &[Subject], measured: &[Times]) {
    println!("| problems | library/paper |");
    println!("|---|---:|");
    let mean = |name: &str, is_in: &dyn Fn(Group) -> bool| {
        let ratios: Vec<f64> = subjects
            .iter()
            .zip(measured)
            .filter(|(subject, _)| is_in(subject.group))
            .map(|(_, times)| times.ratio())
            .collect();
        let logs: f64 = ratios.iter().map(|ratio| ratio.ln()).sum();
        println!("| {name} ({}) | {:.2} |", ratios.len(), (logs / ratios.len() as f64).exp());
    };
    mean("made, without roots", &|group| group == Group::Made);
    mean("roots", &|group| group == Group::Roots);
    mean("sheets", &|group| group == Group::Sheet);
    mean("all but roots", &|group| group != Group::Roots);
    mean("all", &|_| true);
    println!();
}

/// The table of sheets: translated, and answered as the desk does.
fn sheets() {
    println!(
        "| sheet | translate: library, µs | paper, µs | library/paper \
         | answer: library, µs | paper, µs | library/paper |"
    );
    println!("|---|---:|---:|---:|---:|---:|---:|");
    for sheet in subjects::sheet_texts() {
        let translate = translate_times(&sheet.text);
        let answer = answer_times(&sheet.text);
        println!(
            "| {} | {:.2} | {:.2} | {:.2} | {:.2} | {:.2} | {:.2} |",
            sheet.name,
            translate.library * 1e6,
            translate.paper * 1e6,
            translate.ratio(),
            answer.library * 1e6,
            answer.paper * 1e6,
            answer.ratio()
        );
    }
    println!();
}

fn translate_times(text: &[u8]) -> Times {
    let lists = || {
        (
            [0; calls::FULL_RANGES],
            [0; calls::FULL_PRIMITIVES],
            [0; calls::FULL_LENGTHS],
            [0; calls::FULL_LITERALS],
            [0; calls::FULL_NAMES],
        )
    };
    let (mut a, mut b) = (lists(), lists());
    duel(
        || {
            let _ = calls::translate(text, &mut a.0, &mut a.1, &mut a.2, &mut a.3, &mut a.4);
        },
        || {
            paper::translate(text, &mut b.0, &mut b.1, &mut b.2, &mut b.3, &mut b.4);
        },
    )
}

fn answer_times(text: &[u8]) -> Times {
    let mut out = [0; calls::OUTPUT];
    duel(
        || {
            calls::answer(text, &mut out);
        },
        || {
            std::hint::black_box(paper::answer(text));
        },
    )
}

/// Whole programs on a typical sheet, those that are built.
fn programs() {
    let folder = Path::new(env!("CARGO_MANIFEST_DIR"));
    let sheets = subjects::sheet_texts();
    let Some(sheet) = sheets.iter().find(|sheet| sheet.name == TYPICAL) else { return };
    println!("| program, {TYPICAL} | processor time, ms | wall clock, ms |");
    println!("|---|---:|---:|");
    for (name, path) in [
        ("desk (proved)", "../../crates/desk/out/desk"),
        ("rul (proved library)", "../target/release/rul"),
        ("rulpaper", "../target/release/rulpaper"),
    ] {
        if let Some(times) = process::time(&folder.join(path), &sheet.text) {
            println!("| {name} | {:.2} | {:.2} |", times.processor * 1e3, times.wall * 1e3);
        }
    }
}
