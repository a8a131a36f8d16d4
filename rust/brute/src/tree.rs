//! Sheets as trees: how they read as text, what they mean, and what their
//! translation must be. The text is only ever written here, never read.

use crate::M;

pub enum Expr {
    /// A value and the way it is spelled.
    Number(i64, String),
    Name(String),
    /// Brackets that need not be there.
    Bracket(Box<Expr>),
    Sum(Box<Expr>, Box<Expr>),
    Difference(Box<Expr>, Box<Expr>),
    Product(Box<Expr>, Box<Expr>),
    Square(Box<Expr>),
}

pub struct Comparison {
    pub left: Expr,
    pub op: &'static str,
    pub right: Expr,
}

/// A rule; without conditions it is a `must`.
pub struct Rule {
    pub conditions: Vec<Comparison>,
    pub demands: Vec<Comparison>,
}

pub enum Line {
    /// A range line with ends; `tail` is what stands behind the name.
    Range {
        name: String,
        low: i64,
        high: i64,
        tail: String,
    },
    /// A range line that has a name and no ends.
    Default(String),
    Rule(Rule),
    /// A line that is surely malformed.
    Malformed(String),
}

/// A sheet: the version on line 1, and the lines behind it.
pub struct Sheet {
    pub version: u16,
    pub lines: Vec<Line>,
}

/// The text of a sheet, mark included.
pub fn text(sheet: &Sheet) -> String {
    let mark = format!("RUL {}\n", sheet.version);
    sheet.lines.iter().fold(mark, |text, line| text + &line_text(line) + "\n")
}

pub fn line_text(line: &Line) -> String {
    match line {
        Line::Range { name, tail, .. } => format!("range {name}{tail}"),
        Line::Default(name) => format!("range {name}"),
        Line::Malformed(text) => text.clone(),
        Line::Rule(rule) => {
            let demands = joined(&rule.demands, " or ");
            if rule.conditions.is_empty() {
                format!("must {demands}")
            } else {
                format!("if {} then {demands}", joined(&rule.conditions, " and "))
            }
        }
    }
}

fn joined(comparisons: &[Comparison], joint: &str) -> String {
    let words: Vec<String> = comparisons
        .iter()
        .map(|c| format!("{} {} {}", expr_text(&c.left, 0), c.op, expr_text(&c.right, 0)))
        .collect();
    words.join(joint)
}

/// The text of an expression where at least `rank` is wanted: 0 a whole
/// expression, 1 a term, 2 a factor, 3 an atom. Brackets go round the rest.
fn expr_text(expr: &Expr, rank: u8) -> String {
    let (own, text) = match expr {
        Expr::Number(_, spelled) => (3, spelled.clone()),
        Expr::Name(name) => (3, name.clone()),
        Expr::Bracket(inner) => (3, format!("( {} )", expr_text(inner, 0))),
        Expr::Sum(a, b) => (0, format!("{} + {}", expr_text(a, 0), expr_text(b, 1))),
        Expr::Difference(a, b) => (0, format!("{} - {}", expr_text(a, 0), expr_text(b, 1))),
        Expr::Product(a, b) => (1, format!("{} * {}", expr_text(a, 1), expr_text(b, 2))),
        Expr::Square(a) => (2, format!("{} ^2", expr_text(a, 3))),
    };
    if own >= rank {
        text
    } else {
        format!("( {text} )")
    }
}

/// Whether values of the declared names meet every rule.
pub fn obeys(sheet: &Sheet, value: &dyn Fn(&str) -> i64) -> bool {
    sheet.lines.iter().all(|line| match line {
        Line::Rule(rule) => {
            rule.conditions.iter().any(|c| !holds(c, value))
                || rule.demands.iter().any(|c| holds(c, value))
        }
        _ => true,
    })
}

fn holds(comparison: &Comparison, value: &dyn Fn(&str) -> i64) -> bool {
    let (left, right) = (evaluate(&comparison.left, value), evaluate(&comparison.right, value));
    match comparison.op {
        "<=" => left <= right,
        "<" => left < right,
        ">=" => left >= right,
        ">" => left > right,
        "=" => left == right,
        _ => left != right,
    }
}

fn evaluate(expr: &Expr, value: &dyn Fn(&str) -> i64) -> i128 {
    match expr {
        Expr::Number(number, _) => i128::from(*number),
        Expr::Name(name) => i128::from(value(name)),
        Expr::Bracket(inner) => evaluate(inner, value),
        Expr::Sum(a, b) => evaluate(a, value) + evaluate(b, value),
        Expr::Difference(a, b) => evaluate(a, value) - evaluate(b, value),
        Expr::Product(a, b) => evaluate(a, value) * evaluate(b, value),
        Expr::Square(a) => evaluate(a, value) * evaluate(a, value),
    }
}

/// What an accepted sheet's lists must be.
#[derive(Clone, Debug, Default, PartialEq, Eq)]
pub struct Lists {
    pub ranges: Vec<i64>,
    pub primitives: Vec<i64>,
    pub lengths: Vec<i64>,
    pub literals: Vec<i64>,
    pub names: Vec<String>,
}

/// The lists, or the number and line of the refusal.
pub fn predict(sheet: &Sheet) -> Result<Lists, (u8, usize)> {
    if ![1, 2].contains(&sheet.version) {
        return Err((22, 1));
    }
    let mut walk = Walk { version: sheet.version, ..Walk::default() };
    for (line, number) in sheet.lines.iter().zip(2..) {
        walk.line(line);
        if let Some(&lowest) = walk.faults.iter().min() {
            return Err((lowest, number));
        }
    }
    if walk.lists.names.is_empty() {
        return Err((30, 0));
    }
    Ok(walk.lists)
}

/// Goes through the lines and gathers lists and faults.
#[derive(Default)]
struct Walk {
    version: u16,
    lists: Lists,
    faults: Vec<u8>,
    rules: usize,
}

impl Walk {
    fn line(&mut self, line: &Line) {
        if deepest(&line_text(line)) > 16 {
            self.faults.push(23);
        }
        match line {
            Line::Malformed(_) => self.faults.push(24),
            Line::Range { name, low, high, .. } => self.range(name, *low, *high),
            // Version 1 keeps the old top.
            Line::Default(name) if self.version == 1 => self.range(name, 0, 1_000_000),
            Line::Default(name) => self.range(name, 0, 200_000),
            Line::Rule(rule) => self.rule(rule),
        }
        if self.lists.ranges.len() / 2 > 128 {
            self.faults.push(29);
        }
    }

    fn range(&mut self, name: &str, low: i64, high: i64) {
        if self.rules > 0 {
            self.faults.push(24);
        }
        if self.lists.names.iter().any(|known| known == name) {
            self.faults.push(25);
        }
        if low > high {
            self.faults.push(26);
        }
        self.lists.names.push(name.to_string());
        self.lists.ranges.extend([low, high]);
    }

    fn rule(&mut self, rule: &Rule) {
        self.rules += 1;
        let mut first = Vec::new();
        let mut second = Vec::new();
        let mut equalities = 0;
        let conditions = rule.conditions.iter().map(|c| (c, true));
        let demands = rule.demands.iter().map(|c| (c, false));
        for (comparison, negated) in conditions.chain(demands) {
            let left = self.helper_of(&comparison.left);
            let right = self.helper_of(&comparison.right);
            let d = self.difference(left, right);
            match literals(comparison.op, negated) {
                Some(list) => {
                    for (sense, bound) in list {
                        first.extend([d, *sense, *bound]);
                        second.extend([d, *sense, *bound]);
                    }
                }
                None => {
                    equalities += 1;
                    first.extend([d, 0, 0]);
                    second.extend([d, 1, 0]);
                }
            }
        }
        if equalities > 1 {
            self.faults.push(27);
        }
        self.lists.lengths.push(first.len() as i64 / 3);
        self.lists.literals.extend(&first);
        if equalities == 1 {
            self.lists.lengths.push(second.len() as i64 / 3);
            self.lists.literals.extend(&second);
        }
    }

    /// The quantity that stands for an expression.
    fn helper_of(&mut self, expr: &Expr) -> i64 {
        match expr {
            Expr::Number(value, _) => self.helper((*value).into(), (*value).into()),
            Expr::Bracket(inner) => self.helper_of(inner),
            Expr::Name(name) => self.declared(name),
            Expr::Sum(a, b) => {
                let (a, b) = (self.helper_of(a), self.helper_of(b));
                let ((al, ah), (bl, bh)) = (self.ends(a), self.ends(b));
                let h = self.helper(al + bl, ah + bh);
                self.lists.primitives.extend([1, h, a, b]);
                h
            }
            Expr::Difference(a, b) => {
                let (a, b) = (self.helper_of(a), self.helper_of(b));
                self.difference(a, b)
            }
            Expr::Product(a, b) => {
                let (a, b) = (self.helper_of(a), self.helper_of(b));
                let ((al, ah), (bl, bh)) = (self.ends(a), self.ends(b));
                let mut products = [al * bl, al * bh, ah * bl, ah * bh];
                products.sort_unstable();
                let h = self.helper(products[0], products[3]);
                self.lists.primitives.extend([2, h, a, b]);
                h
            }
            Expr::Square(a) => {
                let a = self.helper_of(a);
                let (low, high) = self.ends(a);
                let least = if low > 0 {
                    low * low
                } else if high < 0 {
                    high * high
                } else {
                    0
                };
                let h = self.helper(least, (low * low).max(high * high));
                self.lists.primitives.extend([3, h, a, 0]);
                h
            }
        }
    }

    fn declared(&mut self, name: &str) -> i64 {
        match self.lists.names.iter().position(|known| known == name) {
            Some(place) => place as i64,
            None => {
                // Any quantity will do: the line is refused. It must only exist.
                self.faults.push(25);
                self.helper(0, 0)
            }
        }
    }

    fn difference(&mut self, a: i64, b: i64) -> i64 {
        let ((al, ah), (bl, bh)) = (self.ends(a), self.ends(b));
        let d = self.helper(al - bh, ah - bl);
        self.lists.primitives.extend([1, a, d, b]);
        d
    }

    fn ends(&self, quantity: i64) -> (i128, i128) {
        let place = 2 * quantity as usize;
        (self.lists.ranges[place].into(), self.lists.ranges[place + 1].into())
    }

    /// A new quantity. One that leaves plus or minus M gets a small range
    /// instead: the line is refused 28 (or lower) from here on anyhow.
    fn helper(&mut self, low: i128, high: i128) -> i64 {
        let m = i128::from(M);
        let range = if low < -m || high > m {
            self.faults.push(28);
            [0, 0]
        } else {
            [low as i64, high as i64]
        };
        self.lists.ranges.extend(range);
        self.lists.ranges.len() as i64 / 2 - 1
    }
}

/// The literals of a comparison; None for an equality demand.
fn literals(op: &str, negated: bool) -> Option<&'static [(i64, i64)]> {
    match (op, negated) {
        ("<=", false) | (">", true) => Some(&[(0, 0)]),
        ("<", false) | (">=", true) => Some(&[(0, -1)]),
        (">=", false) | ("<", true) => Some(&[(1, 0)]),
        (">", false) | ("<=", true) => Some(&[(1, 1)]),
        ("!=", false) | ("=", true) => Some(&[(0, -1), (1, 1)]),
        _ => None,
    }
}

/// The most brackets open at some piece of a line.
fn deepest(line: &str) -> i64 {
    let mut open = 0;
    let mut most = 0;
    for piece in line.split(' ') {
        open += i64::from(piece == "(") - i64::from(piece == ")");
        most = most.max(open);
    }
    most
}
