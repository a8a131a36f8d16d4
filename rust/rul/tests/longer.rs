//! `rul --longer` as a program: its stages on standard error, its answer on standard output, its
//! status, and an interrupt.
//!
//! The numbers of `creeping` are worked out by hand. With a and b from 0 to h, a < b and b <= a,
//! the first sweep cuts the two differences only. Each later one raises both low ends and lowers
//! both high ends by one: after sweep k both range from k-1 to h-k+1. The sweep that meets at most
//! two values empties the box, so it takes h/2 + 2 sweeps, h/2 rounded down, and the floor at a
//! budget of k is k-1 for both.

use std::io::{BufRead, BufReader, Read, Write};
use std::process::{Child, Command, Output, Stdio};

/// Decided by 5,000,002 sweeps: the third stage.
const CREEP: &str = include_str!("creep.rul");

fn creeping(high: u64) -> String {
    format!("RUL 1\nrange a 0 {high}\nrange b 0 {high}\nmust a < b\nmust b <= a\n")
}

fn start(options: &[&str], sheet: &str) -> Child {
    let mut rul = Command::new(env!("CARGO_BIN_EXE_rul"))
        .args(options)
        .stdin(Stdio::piped())
        .stdout(Stdio::piped())
        .stderr(Stdio::piped())
        .spawn()
        .expect("rul starts");
    let mut input = rul.stdin.take().expect("a pipe");
    input.write_all(sheet.as_bytes()).expect("rul reads the sheet");
    rul
}

fn run(options: &[&str], sheet: &str) -> Output {
    start(options, sheet).wait_with_output().expect("rul ends")
}

/// Standard output and status.
fn answer(output: &Output) -> (String, Option<i32>) {
    (String::from_utf8_lossy(&output.stdout).into_owned(), output.status.code())
}

fn answered(text: &str) -> (String, Option<i32>) {
    (text.to_string(), Some(0))
}

/// The stages' lines without their times.
fn stages(output: &Output) -> Vec<String> {
    String::from_utf8_lossy(&output.stderr).split_inclusive('\n').map(untimed).collect()
}

fn untimed(line: &str) -> String {
    let (paid, rest) = line.split_once(" in ").expect("a stage");
    let (time, rest) = rest.split_once(" s,").expect("a time");
    assert!(time.parse::<f64>().is_ok(), "{time}");
    format!("{paid},{rest}")
}

#[test]
fn the_stored_sheet_is_decided_by_the_third_stage() {
    let output = run(&["--longer"], CREEP);
    assert_eq!(CREEP, creeping(10_000_000));
    assert_eq!(answer(&output), answered("NONE 5000002\n"));
    assert_eq!(
        stages(&output),
        [
            "100000 sweeps, floor a 99999 b 99999\n",
            "1000000 sweeps, floor a 999999 b 999999\n",
            "5000002 sweeps, decided\n",
        ]
    );
}

#[test]
fn a_budget_that_stops() {
    let output = run(&["--longer", "--budget", "250000"], &creeping(1_000_000));
    assert_eq!(answer(&output), answered("STOP 250000\na 249999\nb 249999\n"));
    assert_eq!(
        stages(&output),
        ["100000 sweeps, floor a 99999 b 99999\n", "250000 sweeps, floor a 249999 b 249999\n",]
    );
}

#[test]
fn the_last_sweep_allowed_decides() {
    let sheet = creeping(300_000);
    let output = run(&["--longer", "--budget", "150002"], &sheet);
    assert_eq!(answer(&output), answered("NONE 150002\n"));
    let output = run(&["--longer", "--budget", "150001"], &sheet);
    assert_eq!(answer(&output), answered("STOP 150001\na 150000\nb 150000\n"));
}

#[test]
fn a_budget_below_the_desks_is_the_only_stage() {
    let output = run(&["--budget", "30", "--longer"], CREEP);
    assert_eq!(answer(&output), answered("STOP 30\na 29\nb 29\n"));
    assert_eq!(stages(&output), ["30 sweeps, floor a 29 b 29\n"]);
}

#[test]
fn in_words() {
    let output = run(&["--words", "--longer", "--budget", "30"], CREEP);
    let words = "Stopped: the budget of 30 sweeps is used up. \
                 No frame before these values meets everything:\n  a = 29\n  b = 29\n";
    assert_eq!(answer(&output), answered(words));
}

/// With c 0 the first half creeps; with c 1 the smallest frame has a and b 0.
#[test]
fn found_by_the_second_stage() {
    let sheet = "RUL 1\nrange c 0 1\nrange a 0 300000\nrange b 0 300000\n\
                 if c = 0 then a < b\nmust b <= a\n";
    let output = run(&["--longer"], sheet);
    let (text, status) = answer(&output);
    assert!(text.starts_with("FOUND 150") && text.ends_with("\nc 1\na 0\nb 0\n"), "{text}");
    assert_eq!((stages(&output).len(), status), (2, Some(0)));
    assert_eq!(answer(&run(&["--budget", "1000000"], sheet)), (text, status));
}

#[test]
fn refusals_come_before_any_stage() {
    for (budget, sheet, refused) in [
        ("1000000001", CREEP, "REFUSED 6 0\n"),
        ("-1", CREEP, "REFUSED 6 0\n"),
        ("250000", "RUL 1\nrange a 2 1\n", "REFUSED 26 2\n"),
    ] {
        let output = run(&["--longer", "--budget", budget], sheet);
        assert_eq!(answer(&output), (refused.to_string(), Some(1)));
        assert_eq!(stages(&output).len(), 0);
    }
}

/// The third stage is over when its line is read, and the fourth takes seconds.
#[test]
fn an_interrupt_prints_the_last_floor() {
    let mut rul = start(&["--longer"], &creeping(1_000_000_000_000));
    let mut lines = BufReader::new(rul.stderr.take().expect("a pipe")).lines();
    let third = lines.nth(2).expect("a third stage").expect("a line");
    assert_eq!(untimed(&third), "10000000 sweeps, floor a 9999999 b 9999999");
    let kill = format!("kill -INT {}", rul.id());
    assert!(Command::new("sh").args(["-c", &kill]).status().expect("sh starts").success());
    let mut text = String::new();
    rul.stdout.take().expect("a pipe").read_to_string(&mut text).expect("an answer");
    assert_eq!(text, "STOP 10000000\na 9999999\nb 9999999\n");
    assert_eq!(rul.wait().expect("rul ends").code(), Some(130));
}
