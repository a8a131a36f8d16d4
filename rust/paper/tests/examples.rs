//! The paper's examples through the public calls.

use paper::{
    answer, line_span, solve, translate, workspace_need, Answer, Counts, Solved, Translated,
};

fn desk(body: &str) -> String {
    desk_of("RUL 1", body)
}

fn desk_of(mark: &str, body: &str) -> String {
    String::from_utf8(answer(format!("{mark}\n{body}\n").as_bytes())).expect("plain text")
}

/// Solves with buffers of the right size.
fn solved(ranges: &[i64], primitives: &[i64], literals: &[i64], budget: i64) -> (Solved, Vec<i64>) {
    let lengths = vec![1; literals.len() / 3];
    let mut point = vec![77; ranges.len() / 2];
    let n = point.len() as i64;
    let mut work = vec![77; workspace_need(ranges, n).1];
    let solved = solve(ranges, primitives, &lengths, literals, n, budget, &mut point, &mut work);
    assert!(work.iter().all(|&number| number == 0));
    (solved, point)
}

fn none(sweeps: i64) -> Solved {
    Solved { answer: Ok(Answer::None), sweeps }
}

#[test]
fn p1_the_first_sheet() {
    let sheet = "range w 1 10\nrange h 1 10\nmust w * h = 35\nmust w < h";
    assert_eq!(desk(sheet), "FOUND 6\nw 5\nh 7\n");
    let mut ranges = [9; 256];
    let (mut primitives, mut lengths, mut literals) = ([9; 1_024], [9; 256], [9; 3_072]);
    let mut names = [b'9'; 1_024];
    let translated = translate(
        format!("RUL 1\n{sheet}\n").as_bytes(),
        &mut ranges,
        &mut primitives,
        &mut lengths,
        &mut literals,
        &mut names,
    );
    let counts = Counts { quantities: 6, declared: 2, primitives: 3, clauses: 3, literals: 3 };
    assert_eq!(translated, Translated::Accepted(counts));
    assert_eq!(ranges[..13], [1, 10, 1, 10, 1, 100, 35, 35, -34, 65, -9, 9, 9]);
    assert_eq!(primitives[..13], [2, 2, 0, 1, 1, 2, 4, 3, 1, 0, 5, 1, 9]);
    assert_eq!(lengths[..4], [1, 1, 1, 9]);
    assert_eq!(literals[..10], [4, 0, 0, 4, 1, 0, 5, 0, -1, 9]);
    assert_eq!(&names[..17], b"w       h       9");
    assert_eq!(workspace_need(&ranges[..12], 2), (8, 108));
    assert_eq!(workspace_need(&ranges[..12], 6), (27, 336));
}

/// P1's problem with some of its quantities leading and a workspace of some
/// length; 7 where the workspace is one too short.
#[test]
fn p1_with_leading_quantities() {
    let ranges = [1, 10, 1, 10, 1, 100, 35, 35, -34, 65, -9, 9];
    let primitives = [2, 2, 0, 1, 1, 2, 4, 3, 1, 0, 5, 1];
    let literals = [4, 0, 0, 4, 1, 0, 5, 0, -1];
    let with = |leading: i64, work: usize| {
        let (mut point, mut work) = ([77; 6], vec![77; work]);
        let solved = solve(
            &ranges,
            &primitives,
            &[1, 1, 1],
            &literals,
            leading,
            100_000,
            &mut point,
            &mut work,
        );
        (solved, point, work)
    };
    let found = Solved { answer: Ok(Answer::Found), sweeps: 6 };
    // D is 4 for w and h each, 7 for their product, 0, 7 and 5 for the others.
    for (leading, need) in [(2, 108), (3, 192), (4, 192), (5, 276), (6, 336)] {
        let mut cleared = vec![0; need];
        cleared.push(77);
        assert_eq!(with(leading, need + 1), (found, [5, 7, 35, 35, 0, -2], cleared));
        let refused = Solved { answer: Err(7), sweeps: 0 };
        assert_eq!(with(leading, need - 1), (refused, [77; 6], vec![77; need - 1]));
    }
    for leading in [i64::MIN, -1, 0, 1, 7, i64::MAX] {
        let refused = Solved { answer: Err(8), sweeps: 0 };
        assert_eq!(with(leading, 0), (refused, [77; 6], vec![]), "{leading}");
    }
}

#[test]
fn p2_to_p5_counts_and_floors() {
    assert_eq!(desk("range x 0 3\nmust x ^2 = 2"), "NONE 3\n");
    assert_eq!(desk("range x 0 3\nrange y 0 3\nmust x + y = 3"), "FOUND 7\nx 0\ny 3\n");
    let ranges = [0, 3, 0, 3, 0, 6, 3, 3, -3, 3];
    let primitives = [1, 2, 0, 1, 1, 2, 4, 3];
    let with_budget = |budget| solved(&ranges, &primitives, &[4, 0, 0, 4, 1, 0], budget);
    let stopped = |sweeps| Solved { answer: Ok(Answer::Stopped), sweeps };
    let (p4, floor) = with_budget(5);
    assert_eq!((p4, &floor[..2]), (stopped(5), &[0, 2][..]));
    let (p5, floor) = with_budget(0);
    assert_eq!((p5, &floor[..2]), (stopped(0), &[0, 0][..]));
}

#[test]
fn p8_and_p11_are_empty() {
    let m = paper::M;
    let product = [2, 0, 1, 2];
    assert_eq!(solved(&[7, 7, -100, 100, 2, 2], &product, &[], 9), (none(1), vec![77; 3]));
    assert_eq!(solved(&[0, m, m, m, m, m], &product, &[], 9), (none(1), vec![77; 3]));
}

#[test]
fn p12_halves_towards_minus_infinity() {
    let found = Solved { answer: Ok(Answer::Found), sweeps: 2 };
    assert_eq!(solved(&[-1, 0], &[], &[], 9), (found, vec![-1]));
}

#[test]
fn the_other_examples() {
    assert_eq!(desk("range a 4G 4G"), "FOUND 1\na 4294967296\n");
    assert_eq!(desk("range a 931G 931G"), "FOUND 1\na 999653638144\n");
    assert_eq!(desk("range a 932G 932G"), "REFUSED 24 2\n");
    assert_eq!(desk("range a 1000G 1000G"), "REFUSED 24 2\n");
    assert_eq!(desk("range a\nrange b\nmust a * b + 1 <= 5"), "REFUSED 28 4\n");
    assert!(desk("range a\nrange b\nmust a * b <= 5").starts_with("FOUND"));
    assert_eq!(desk("must 1 <= 2"), "REFUSED 30 0\n");
    assert_eq!(desk("range x 1 4\nmust x * x = 10"), "NONE 4\n");
}

#[test]
fn versions_have_their_default_range() {
    // 1,000,000 is halved to 0 in 20 steps, 200,000 in 18.
    assert_eq!(desk_of("RUL 1", "range a"), "FOUND 21\na 0\n");
    assert_eq!(desk_of("RUL 2", "range a"), "FOUND 19\na 0\n");
    for (mark, inside, beyond) in [
        ("RUL 1", "must a > 999999", "must a > 1000000"),
        ("RUL 2", "must a > 199999", "must a > 200000"),
    ] {
        assert!(desk_of(mark, &format!("range a\n{inside}")).starts_with("FOUND"), "{mark}");
        assert!(desk_of(mark, &format!("range a\n{beyond}")).starts_with("NONE"), "{mark}");
    }
    let three_factors = "range w\nrange h\nrange s 1 4\nmust w * h * s <= 5";
    assert_eq!(desk_of("RUL 1", three_factors), "REFUSED 28 5\n");
    assert!(desk_of("RUL 2", three_factors).ends_with("\nw 0\nh 0\ns 1\n"));
    // K, M and G are the same in both.
    assert_eq!(desk_of("RUL 2", "range a 4G 4G"), "FOUND 1\na 4294967296\n");
}

#[test]
fn other_versions_are_refused() {
    for version in ["0", "3", "4", "10", "12", "20", "65535"] {
        assert_eq!(desk_of(&format!("RUL {version}"), "range a"), "REFUSED 22 1\n", "{version}");
    }
    for version in ["65536", "65538", "02", "2K", "-2", "2 ", ""] {
        assert_eq!(desk_of(&format!("RUL {version}"), "range a"), "REFUSED 21 1\n", "{version}");
    }
    // It goes before every fault of a later line, and behind those of the text.
    assert_eq!(desk_of("RUL 3", "nonsense"), "REFUSED 22 1\n");
    assert_eq!(desk_of("RUL 3", "range a\t"), "REFUSED 20 0\n");
}

#[test]
fn a_zero_at_the_end_of_a_factors_range() {
    let sheet = "range s 0 8\nrange w 0 9\nmust s * w = 12";
    assert_eq!(desk(sheet), "FOUND 11\ns 2\nw 6\n");
    assert_eq!(desk("range s -3 0\nrange w 0 5\nmust s * w = 0 - 4"), "FOUND 7\ns -2\nw 2\n");
}

#[test]
fn one_line_of_a_text() {
    assert_eq!(line_span(b"RUL 1\nrange a\n", 2), (6, 13));
    assert_eq!(line_span(b"RUL 1\nrange a\n", 3), (14, 14));
}
