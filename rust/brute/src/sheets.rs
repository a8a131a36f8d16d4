//! Random sheets: small ones to evaluate, faulty ones with a known refusal,
//! and damaged texts.

use crate::problems::notable;
use crate::random::Random;
use crate::tree::{line_text, Comparison, Expr, Line, Rule, Sheet};
use crate::M;

const OPS: [&str; 6] = ["<=", "<", ">=", ">", "=", "!="];
const NAMES: [&str; 7] = ["a", "b", "x", "width", "ranges", "iff", "eightlet"];
/// What no letter, K, M and G stand for.
const UNITS: [(i64, &str); 4] =
    [(1, ""), (1_024, "K"), (1_024 * 1_024, "M"), (1_024 * 1_024 * 1_024, "G")];

/// What the expressions of a sheet are made of.
struct Stuff {
    names: Vec<String>,
    numbers: fn(&mut Random) -> i64,
    depth: usize,
}

/// The version of a sheet: 1 or 2, and now and then one next to them.
pub fn version(random: &mut Random) -> u16 {
    if random.once_in(20) {
        return *random.pick(&[0, 3]);
    }
    *random.pick(&[1, 2])
}

/// A sheet with few values, to be tried assignment by assignment.
pub fn small(random: &mut Random) -> Sheet {
    let version = version(random);
    let count = 1 + random.below(3);
    let widest = [40, 12, 6][count - 1];
    let names = some_names(random, count);
    let mut lines = Vec::new();
    for name in &names {
        let low = random.between(-6, 6);
        let high = low + random.between(0, widest - 1);
        // The many values of a default range take their time.
        let is_default = random.once_in(200);
        lines.push(range_line(random, name, low, high, is_default));
    }
    let stuff = Stuff { names, numbers: |random| random.between(0, 12), depth: 3 };
    for _ in 0..random.below(5) {
        lines.push(Line::Rule(rule(random, &stuff, true)));
    }
    Sheet { version, lines }
}

/// A sheet that often has one or more faults, each of them foreseeable.
pub fn faulty(random: &mut Random) -> Sheet {
    let version = version(random);
    let mut lines = Vec::new();
    let count = random.below(4);
    let mut names = some_names(random, count);
    if random.once_in(8) {
        // Enough quantities to come near 128, or past it.
        names.extend((0..118 + random.below(14)).map(numbered));
    }
    for name in &names {
        let (a, b) = (sized(random), sized(random));
        // Many long lines would only make the text too long.
        let is_short = names.len() > 9 || random.once_in(2);
        let (a, b) = if is_short { (a % 1_000, b % 1_000) } else { (a, b) };
        let slip = random.once_in(150);
        let (low, high) = if slip { (a.max(b), a.min(b)) } else { (a.min(b), a.max(b)) };
        let is_default = random.once_in(5);
        lines.push(range_line(random, name, low, high, is_default));
    }
    if random.once_in(10) {
        let name = random.pick(&NAMES).to_string();
        lines.push(range_line(random, &name, 0, 1, false));
    }
    let numbers = if random.once_in(3) {
        |r: &mut Random| sized(r).abs()
    } else {
        |r: &mut Random| r.between(0, 50)
    };
    let mut stuff = Stuff { names, numbers, depth: 1 + random.below(4) };
    for _ in 0..random.below(6) {
        if random.once_in(12) {
            stuff.names.push(random.pick(&NAMES).to_string());
        }
        let single = !random.once_in(6);
        lines.push(Line::Rule(rule(random, &stuff, single)));
    }
    if random.once_in(12) {
        let deep = deep_rule(random);
        insert(random, &mut lines, deep);
    }
    if random.once_in(12) {
        insert(random, &mut lines, Line::Default("late".into()));
    }
    if random.once_in(3) && !lines.is_empty() {
        let place = random.below(lines.len());
        lines[place] = Line::Malformed(malformed(random, &line_text(&lines[place])));
    }
    Sheet { version, lines }
}

fn insert(random: &mut Random, lines: &mut Vec<Line>, line: Line) {
    let place = random.below(lines.len() + 1);
    lines.insert(place, line);
}

/// The name of a quantity among many.
fn numbered(index: usize) -> String {
    let letter = |value: usize| char::from(b'a' + (value % 26) as u8);
    format!("q{}{}", letter(index / 26), letter(index))
}

fn some_names(random: &mut Random, count: usize) -> Vec<String> {
    let start = random.below(NAMES.len());
    (0..count).map(|i| NAMES[(start + i) % NAMES.len()].to_string()).collect()
}

fn range_line(random: &mut Random, name: &str, low: i64, high: i64, is_default: bool) -> Line {
    let name = name.to_string();
    if is_default {
        return Line::Default(name);
    }
    let tail = format!(" {} {}", spelled(random, low), spelled(random, high));
    Line::Range { name, low, high, tail }
}

/// A number within plus or minus M: a notable one, or a count of K, M or G,
/// often near the most of them that M has room for.
fn sized(random: &mut Random) -> i64 {
    if !random.once_in(3) {
        return notable(random);
    }
    let (unit, _) = *random.pick(&UNITS);
    let most = M / unit;
    let count =
        if random.once_in(2) { most - random.between(0, 2) } else { random.between(0, most) };
    let sign = if random.once_in(2) { -1 } else { 1 };
    sign * count * unit
}

/// A number as text, with a suffix where one fits and chance has it.
fn spelled(random: &mut Random, value: i64) -> String {
    let (scale, suffix) = *random.pick(&UNITS);
    if value % scale == 0 {
        format!("{}{suffix}", value / scale)
    } else {
        value.to_string()
    }
}

/// A rule; `single` keeps it to at most one equality demand.
fn rule(random: &mut Random, stuff: &Stuff, single: bool) -> Rule {
    let conditions = if random.once_in(2) { 0 } else { 1 + random.below(2) };
    let demands = 1 + random.below(3);
    let mut free = true;
    let mut part = |count: usize, equality: &str| -> Vec<Comparison> {
        let mut comparisons = Vec::new();
        for _ in 0..count {
            let mut op = *random.pick(&OPS);
            while single && !free && op == equality {
                op = *random.pick(&OPS);
            }
            free &= op != equality;
            let left = expr(random, stuff, stuff.depth);
            let right = expr(random, stuff, stuff.depth / 2);
            comparisons.push(Comparison { left, op, right });
        }
        comparisons
    };
    let conditions = part(conditions, "!=");
    let demands = part(demands, "=");
    Rule { conditions, demands }
}

fn expr(random: &mut Random, stuff: &Stuff, depth: usize) -> Expr {
    if depth == 0 || random.once_in(4) {
        return leaf(random, stuff);
    }
    let mut inner = || Box::new(expr(random, stuff, depth - 1));
    let (a, b) = (inner(), inner());
    match random.below(9) {
        0 | 1 => Expr::Sum(a, b),
        2 | 3 => Expr::Difference(a, b),
        4 | 5 => Expr::Product(a, b),
        6 => Expr::Square(a),
        7 => Expr::Bracket(a),
        _ => Expr::Square(Box::new(Expr::Square(b))),
    }
}

fn leaf(random: &mut Random, stuff: &Stuff) -> Expr {
    if stuff.names.is_empty() || random.once_in(3) {
        let value = (stuff.numbers)(random);
        return Expr::Number(value, spelled(random, value));
    }
    Expr::Name(random.pick(&stuff.names).clone())
}

/// A sound rule with brackets nested about as deep as allowed.
fn deep_rule(random: &mut Random) -> Line {
    let number = |value: i64| Expr::Number(value, value.to_string());
    let mut left = number(1);
    for _ in 0..14 + random.below(5) {
        left = Expr::Bracket(Box::new(left));
    }
    Line::Rule(Rule {
        conditions: Vec::new(),
        demands: vec![Comparison { left, op: "<=", right: number(1) }],
    })
}

/// Spoils a sound line so that it is surely malformed.
fn malformed(random: &mut Random, line: &str) -> String {
    const BAD_PIECES: [&str; 19] = [
        "-0",
        "007",
        "932G",
        "1000G",
        "953675M",
        "976562501K",
        "^3",
        "x^2",
        "A",
        "abcdefghi",
        "==",
        "((",
        "",
        "5k",
        "0x1",
        "--5",
        "-0K",
        "1000000000001",
        "17179869185G",
    ];
    let mut pieces: Vec<&str> = line.split(' ').collect();
    match random.below(12) {
        0 => format!("{line} "),
        1 => format!(" {line}"),
        2 => line.replacen(' ', "  ", 1),
        3 => format!("{line} )"),
        4 => format!("{line} or"),
        5 => format!("{line} then 1 = 1"),
        6 => line.replace(' ', ""),
        7 => String::new(),
        8 => ["must", "if 1 = 1", "range", "then", "rule a", "( ( ("][random.below(6)].to_string(),
        9 => format!("{line} ( ( ( ( ( ( ( ( ( ( ( ( ( ( ( ( ("),
        _ => {
            let place = random.below(pieces.len() + 1);
            pieces.insert(place, *random.pick(&BAD_PIECES));
            pieces.join(" ")
        }
    }
}

/// Changes a few bytes or pieces of a text at random.
pub fn damaged(random: &mut Random, text: &str) -> Vec<u8> {
    let mut bytes = text.as_bytes().to_vec();
    for _ in 0..1 + random.below(4) {
        damage(random, &mut bytes);
    }
    // Without this, most texts would lack their last LF and show nothing else.
    if !random.once_in(8) {
        bytes.retain(|&byte| byte == b'\n' || (32..=126).contains(&byte));
        bytes.push(b'\n');
    }
    bytes
}

fn damage(random: &mut Random, bytes: &mut Vec<u8>) {
    const SPLICES: [&str; 25] = [
        " ",
        "\n",
        "(",
        ")",
        "( ",
        " )",
        " or ",
        " and ",
        " then ",
        "if ",
        "must ",
        "range ",
        "-",
        "0",
        "9999999999999",
        "^2",
        " ^2",
        "<=",
        "!",
        "=",
        "K",
        "\t",
        "\r\n",
        "RUL 1\n",
        "RUL 2\n",
    ];
    let place = random.below(bytes.len() + 1);
    match random.below(6) {
        0 if place < bytes.len() => {
            bytes.remove(place);
        }
        1 if place < bytes.len() => bytes[place] = random.bits() as u8,
        2 => bytes.truncate(place),
        3 => {
            let end = (place + random.below(9)).min(bytes.len());
            bytes.drain(place..end);
        }
        4 => {
            let tail = bytes[place..].to_vec();
            bytes.extend(tail);
        }
        _ => {
            bytes.splice(place..place, random.pick(&SPLICES).bytes());
        }
    }
}
