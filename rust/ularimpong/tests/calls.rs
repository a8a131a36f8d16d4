//! The library through its wrapper: document 01's examples, every kind of
//! answer, and refusals in words.

use ularimpong::{answer, line, Ground, Outcome, Problem, Refusal, Report, Sheet, MOST_BUDGET};

const FIRST: &[u8] = b"RUL 1\nrange w 1 10\nrange h 1 10\nmust w * h = 35\nmust w < h\n";

fn read(body: &str) -> Result<Sheet, Refusal> {
    Sheet::read(format!("RUL 1\n{body}\n").as_bytes())
}

fn refused(body: &str) -> (Ground, usize, String) {
    let refusal = read(body).expect_err("a refusal");
    (refusal.ground, refusal.line, refusal.text)
}

#[test]
fn the_first_sheet() {
    assert_eq!(answer(FIRST), b"FOUND 6\nw 5\nh 7\n");
    let sheet = Sheet::read(FIRST).expect("an accepted sheet");
    assert_eq!(sheet.names(), ["w", "h"]);
    let problem = sheet.problem();
    assert_eq!((problem.quantities(), problem.leading(), problem.room()), (6, 2, 108));
    let all_lead = Problem { leading: None, ..problem.clone() };
    assert_eq!((all_lead.leading(), all_lead.room()), (6, 336));
    assert_eq!(all_lead.solve(100_000), sheet.solve(100_000));
    let report = sheet.solve(100_000).expect("an answer");
    assert_eq!(report.sweeps, 6);
    let Outcome::Found(point) = report.outcome else { panic!("found") };
    assert_eq!(sheet.named(&point).collect::<Vec<_>>(), [("w", 5), ("h", 7)]);
}

#[test]
fn none_and_stopped() {
    let none = read("range x 0 3\nmust x ^2 = 2").and_then(|sheet| sheet.solve(100));
    assert_eq!(none, Ok(Report { outcome: Outcome::None, sweeps: 3 }));
    let sheet = read("range x 0 3\nrange y 0 3\nmust x + y = 3").expect("an accepted sheet");
    let stopped = sheet.solve(5).expect("an answer");
    let Outcome::Stopped(floor) = stopped.outcome else { panic!("stopped") };
    assert_eq!((stopped.sweeps, &floor[..2]), (5, &[0, 2][..]));
}

#[test]
fn refusals_have_their_line() {
    let line_3 = "must a = 1 or a = 2";
    assert_eq!(refused(&format!("range a\n{line_3}")), (Ground::Equalities, 3, line_3.into()));
    assert_eq!(refused("must 1 <= 2"), (Ground::Undeclared, 0, String::new()));
    let words = read("range a 2 1").expect_err("a refusal").to_string();
    assert_eq!(
        words,
        "refused (26): a range's low end is above its high end\n  line 2: range a 2 1"
    );
}

#[test]
fn refusals_of_problems() {
    let ground = |problem: &Problem, budget| problem.solve(budget).map_err(|error| error.ground);
    let sound = Problem { ranges: vec![0, 1], ..Problem::default() };
    assert!(ground(&sound, 9).is_ok());
    assert_eq!(ground(&Problem::default(), 9), Err(Ground::Quantities));
    assert_eq!(ground(&sound, -1), Err(Ground::Budget));
    assert!(ground(&sound, MOST_BUDGET).is_ok());
    assert_eq!(ground(&sound, MOST_BUDGET + 1), Err(Ground::Budget));
    let short = sound.solve_within(9, 3).map_err(|error| error.ground);
    assert_eq!(short, Err(Ground::Room));
    for leading in [i64::MIN, -1, 0, 2, i64::MAX] {
        let led = Problem { leading: Some(leading), ..sound.clone() };
        assert_eq!(ground(&led, 9), Err(Ground::Leading));
        let without_room = led.solve_within(9, 0).map_err(|error| error.ground);
        assert_eq!(without_room, Err(Ground::Leading));
        assert_eq!(ground(&led, -1), Err(Ground::Budget));
    }
    let pair = Problem { ranges: vec![0, 1, 0, 9], leading: Some(1), ..Problem::default() };
    assert_eq!(ground(&pair, 9), Err(Ground::Leading));
    let doubled = Problem { primitives: vec![1, 1, 0, 0], ..pair.clone() };
    assert_eq!((doubled.room(), ground(&doubled, 9).is_ok()), (8, true));
    let factor = Problem { primitives: vec![2, 0, 1, 0], ..pair };
    assert_eq!(ground(&factor, 9), Err(Ground::Leading));
    let huge = Problem { ranges: vec![i64::MIN; 100_000], ..Problem::default() };
    assert_eq!(ground(&huge, 9), Err(Ground::Quantities));
    let far = Problem { ranges: vec![i64::MIN, i64::MAX], ..Problem::default() };
    assert_eq!(ground(&far, 9), Err(Ground::Ranges));
}

#[test]
fn lines() {
    assert_eq!(line(FIRST, 2), b"range w 1 10");
    assert_eq!(line(FIRST, 0), b"");
    assert_eq!(line(FIRST, usize::MAX), b"");
    assert_eq!(line(b"ab\ncd", 2), b"cd");
}
