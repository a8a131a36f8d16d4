//! The translation of a well-formed sheet, from its tree, with slips as switches.

use brute::problems::Problem;
use brute::tree::{Comparison, Expr, Line, Rule, Sheet};
use brute::M;

use crate::slip::Slip;

/// A refusal's number and line.
pub type Refusal = (u8, usize);

/// The problem that a sheet stands for, or its refusal: 22, 28 or 29.
pub fn problem(sheet: &Sheet, slip: Slip) -> Result<Problem, Refusal> {
    let top = default_top(sheet.version, slip).ok_or((22, 1))?;
    let mut draft = Draft { problem: Problem::default(), names: Vec::new(), beyond: false, slip };
    for (line, number) in sheet.lines.iter().zip(2..) {
        match line {
            Line::Range { name, low, high, .. } => draft.declare(name, *low, *high),
            Line::Default(name) => draft.declare(name, 0, top),
            Line::Rule(rule) => draft.rule(rule),
            Line::Malformed(_) => {}
        }
        if draft.beyond {
            return Err((28, number));
        }
        if draft.problem.n() > 128 {
            return Err((29, number));
        }
    }
    draft.problem.leading = draft.names.len() as i64;
    Ok(draft.problem)
}

/// Where the default range of a version ends; None if the version is refused.
fn default_top(version: u16, slip: Slip) -> Option<i64> {
    let (old, new) = (1_000_000, 200_000);
    match version {
        0 => None,
        1 => Some(if slip == Slip::NewDefaultAlways { new } else { old }),
        2 => Some(if slip == Slip::OldDefaultStays { old } else { new }),
        _ => (slip == Slip::LaterVersionsTaken).then_some(new),
    }
}

/// The problem so far, and whether a helper's range left plus or minus M.
struct Draft<'a> {
    problem: Problem,
    names: Vec<&'a str>,
    beyond: bool,
    slip: Slip,
}

/// The literals of one clause, three numbers each.
type Clause = Vec<i64>;

/// A range in wide numbers.
type Ends = [i128; 2];

impl<'a> Draft<'a> {
    fn declare(&mut self, name: &'a str, low: i64, high: i64) {
        self.names.push(name);
        self.problem.ranges.extend([low, high]);
    }

    fn rule(&mut self, rule: &Rule) {
        let mut clauses: [Clause; 2] = [Vec::new(), Vec::new()];
        let mut demand = false;
        let conditions = rule.conditions.iter().map(|c| (c, true));
        for (comparison, is_condition) in conditions.chain(rule.demands.iter().map(|c| (c, false)))
        {
            let d = self.compared(comparison);
            let asked = if is_condition { opposite(comparison.op) } else { comparison.op };
            demand |= asked == "=";
            for (clause, second) in clauses.iter_mut().zip([false, true]) {
                for (sense, bound) in self.literals(asked, second) {
                    clause.extend([d, sense, bound]);
                }
            }
        }
        for clause in &clauses[..1 + usize::from(demand)] {
            self.problem.lengths.push(clause.len() as i64 / 3);
            self.problem.literals.extend(clause);
        }
    }

    /// Senses and bounds of what is asked; `second` is for an equality demand's second clause.
    fn literals(&self, asked: &str, second: bool) -> Vec<(i64, i64)> {
        match asked {
            "<=" => vec![(0, 0)],
            "<" => vec![(0, -1)],
            ">=" => vec![(1, 0)],
            ">" => vec![(1, 1)],
            "!=" if self.slip == Slip::UnequalTurned => vec![(1, 1), (0, -1)],
            "!=" => vec![(0, -1), (1, 1)],
            _ => vec![(i64::from(second != (self.slip == Slip::DemandTurned)), 0)],
        }
    }

    /// The difference of a comparison's sides.
    fn compared(&mut self, comparison: &Comparison) -> i64 {
        let (a, b) = self.both(&comparison.left, &comparison.right);
        self.difference(a, b)
    }

    fn both(&mut self, left: &Expr, right: &Expr) -> (i64, i64) {
        if self.slip == Slip::RightFirst {
            let b = self.quantity(right);
            return (self.quantity(left), b);
        }
        let a = self.quantity(left);
        (a, self.quantity(right))
    }

    /// The quantity that stands for an expression.
    fn quantity(&mut self, expr: &Expr) -> i64 {
        match expr {
            Expr::Number(value, _) => self.helper([i128::from(*value); 2]),
            Expr::Name(name) => {
                self.names.iter().position(|known| known == name).unwrap_or(0) as i64
            }
            Expr::Bracket(inner) => self.quantity(inner),
            Expr::Sum(a, b) => {
                let (a, b) = self.both(a, b);
                let ([al, ah], [bl, bh]) = (self.ends(a), self.ends(b));
                self.made(1, [al + bl, ah + bh], a, b)
            }
            Expr::Product(a, b) => {
                let (a, b) = self.both(a, b);
                let ([al, ah], [bl, bh]) = (self.ends(a), self.ends(b));
                let mut products = [al * bl, al * bh, ah * bl, ah * bh];
                products.sort_unstable();
                self.made(2, [products[0], products[3]], a, b)
            }
            Expr::Square(a) => {
                let a = self.quantity(a);
                let [low, high] = self.ends(a);
                let squares = [low * low, high * high];
                let least = if low <= 0 && high >= 0 { 0 } else { squares[0].min(squares[1]) };
                self.made(3, [least, squares[0].max(squares[1])], a, 0)
            }
            Expr::Difference(a, b) => {
                let (a, b) = self.both(a, b);
                self.difference(a, b)
            }
        }
    }

    fn ends(&self, quantity: i64) -> Ends {
        let place = 2 * quantity as usize;
        [self.problem.ranges[place], self.problem.ranges[place + 1]].map(i128::from)
    }

    /// A new quantity. What a range beyond plus or minus M would lead to is
    /// never looked at, so it is cut off there.
    fn helper(&mut self, ends: Ends) -> i64 {
        let most = i128::from(M);
        let kept = ends.map(|end| end.clamp(-most, most));
        self.beyond |= kept != ends;
        self.problem.ranges.extend(kept.map(|end| end as i64));
        self.problem.n() as i64 - 1
    }

    /// A helper that a primitive gives its value.
    fn made(&mut self, kind: i64, ends: Ends, a: i64, b: i64) -> i64 {
        let helper = self.helper(ends);
        self.problem.primitives.extend([kind, helper, a, b]);
        helper
    }

    fn difference(&mut self, a: i64, b: i64) -> i64 {
        let ([al, ah], [bl, bh]) = (self.ends(a), self.ends(b));
        let d = self.helper([al - bh, ah - bl]);
        let (x, y) = if self.slip == Slip::DifferenceTurned { (b, d) } else { (d, b) };
        self.problem.primitives.extend([1, a, x, y]);
        d
    }
}

/// The comparison that holds where another does not.
fn opposite(op: &str) -> &'static str {
    match op {
        "<=" => ">",
        "<" => ">=",
        ">=" => "<",
        ">" => "<=",
        "=" => "!=",
        _ => "=",
    }
}
