//! Short sheets in which names meet themselves often: `x * x`, `x - x`, `x + x`.

use brute::random::Random;
use brute::sheets::version;
use brute::tree::{Comparison, Expr, Line, Rule, Sheet};

const OPS: [&str; 6] = ["<=", "<", ">=", ">", "=", "!="];
const NAMES: [&str; 3] = ["x", "y", "z"];

/// A sheet of one to three names and one to three rules.
pub fn sheet(random: &mut Random) -> Sheet {
    let version = version(random);
    let count = 1 + random.below(3);
    let mut lines: Vec<Line> = NAMES[..count].iter().map(|name| range(random, name)).collect();
    for _ in 0..1 + random.below(3) {
        lines.push(Line::Rule(rule(random, count)));
    }
    Sheet { version, lines }
}

fn range(random: &mut Random, name: &str) -> Line {
    if random.once_in(8) {
        return Line::Default(name.to_string());
    }
    let (low, high) = match random.below(6) {
        0 => (0, random.between(1, 9)),
        1 => (-random.between(1, 9), 0),
        _ => {
            let low = random.between(-9, 9);
            (low, low + random.between(0, 9))
        }
    };
    Line::Range { name: name.to_string(), low, high, tail: format!(" {low} {high}") }
}

/// A rule with at most one equality demand: its first demand.
fn rule(random: &mut Random, count: usize) -> Rule {
    let conditions = random.below(4).saturating_sub(1).min(1);
    let demands = 1 + random.below(4) / 2;
    Rule {
        conditions: (0..conditions).map(|_| comparison(random, count, &OPS[..5])).collect(),
        demands: (0..demands)
            .map(|place| comparison(random, count, if place == 0 { &OPS } else { &OPS[..4] }))
            .collect(),
    }
}

fn comparison(random: &mut Random, count: usize, ops: &[&'static str]) -> Comparison {
    let left = side(random, count);
    let right = if random.once_in(2) { number(random, 60) } else { side(random, count) };
    Comparison { left, op: *random.pick(ops), right }
}

/// A name, or an operation on a name and the same name, another one, or a number.
fn side(random: &mut Random, count: usize) -> Expr {
    let own = random.below(count);
    let name = || Box::new(Expr::Name(NAMES[own].to_string()));
    let other = match random.below(3) {
        0 => Box::new(number(random, 6)),
        1 => name(),
        _ => Box::new(Expr::Name(random.pick(&NAMES[..count]).to_string())),
    };
    match random.below(7) {
        0 => *name(),
        1 => Expr::Sum(name(), other),
        2 | 3 => Expr::Difference(name(), other),
        4 | 5 => Expr::Product(name(), other),
        _ => Expr::Square(name()),
    }
}

fn number(random: &mut Random, most: i64) -> Expr {
    let value = random.between(0, most);
    Expr::Number(value, value.to_string())
}
