//! Sheets into problems.

use crate::frame::Ends;
use crate::narrow::{differences, end_products, squares, sums};
use crate::parse::{self, Line, Node, Part};
use crate::token::{plain_digits, Name, Relation};
use crate::{M, MOST_QUANTITIES};

/// The full sizes of the lent lists.
pub const FULL_RANGES: usize = 256;
pub const FULL_PRIMITIVES: usize = 1_024;
pub const FULL_LENGTHS: usize = 256;
pub const FULL_LITERALS: usize = 3_072;
pub const FULL_NAMES: usize = 1_024;

const MOST_BYTES: usize = 4_096;
const MOST_OPEN: i64 = 16;
const HIGHEST_VERSION: i64 = 65_535;

const AT_MOST: i64 = 0;
const AT_LEAST: i64 = 1;

/// How much of each list an accepted sheet fills.
#[derive(Clone, Copy, Debug, PartialEq, Eq)]
pub struct Counts {
    pub quantities: usize,
    pub declared: usize,
    pub primitives: usize,
    pub clauses: usize,
    pub literals: usize,
}

/// An accepted sheet's counts, or the refusal's number (19 to 30) and line.
#[derive(Clone, Copy, Debug, PartialEq, Eq)]
pub enum Translated {
    Accepted(Counts),
    Refused { number: u8, line: usize },
}

/// Translates a sheet. A refusal writes nothing; acceptance fills the front
/// of each list and leaves the rest.
pub fn translate(
    sheet: &[u8],
    ranges: &mut [i64],
    primitives: &mut [i64],
    lengths: &mut [i64],
    literals: &mut [i64],
    names: &mut [u8],
) -> Translated {
    let short = ranges.len() < FULL_RANGES
        || primitives.len() < FULL_PRIMITIVES
        || lengths.len() < FULL_LENGTHS
        || literals.len() < FULL_LITERALS
        || names.len() < FULL_NAMES;
    if short {
        return Translated::Refused { number: 19, line: 0 };
    }
    match read_sheet(sheet) {
        Err((number, line)) => Translated::Refused { number, line },
        Ok(draft) => {
            fill(ranges, &draft.ranges);
            fill(primitives, &draft.primitives);
            fill(lengths, &draft.lengths);
            fill(literals, &draft.literals);
            fill(names, draft.names.as_flattened());
            Translated::Accepted(draft.counts())
        }
    }
}

fn fill<T: Copy>(list: &mut [T], front: &[T]) {
    list[..front.len()].copy_from_slice(front);
}

/// Refusal number and line.
type Fault = (u8, usize);

fn read_sheet(sheet: &[u8]) -> Result<Draft, Fault> {
    let body = text_body(sheet).ok_or((20, 0))?;
    let mut lines = body.split(|&byte| byte == b'\n');
    let version = lines.next().and_then(version).ok_or((21, 1))?;
    let default = default_range(version).ok_or((22, 1))?;
    let mut draft = Draft::new(default);
    for (line, number) in lines.zip(2..) {
        draft.line(line).map_err(|refusal| (refusal, number))?;
    }
    if draft.names.is_empty() {
        return Err((30, 0));
    }
    Ok(draft)
}

/// The text without its last LF, if its bytes are sound.
fn text_body(sheet: &[u8]) -> Option<&[u8]> {
    let body = sheet.strip_suffix(b"\n")?;
    let sound = sheet.len() <= MOST_BYTES
        && body.iter().all(|&byte| byte == b'\n' || (32..=126).contains(&byte));
    sound.then_some(body)
}

/// The version that line 1 names; a number above 65,535 is no version.
fn version(line: &[u8]) -> Option<i64> {
    plain_digits(line.strip_prefix(b"RUL ")?, HIGHEST_VERSION)
}

/// What `range NAME` means in a version, if there is such a version.
fn default_range(version: i64) -> Option<Ends> {
    match version {
        1 => Some((0, 1_000_000)),
        2 => Some((0, 200_000)),
        _ => None,
    }
}

/// The problem as far as the lines read so far make it.
struct Draft {
    default: Ends,
    ranges: Vec<i64>,
    primitives: Vec<i64>,
    lengths: Vec<i64>,
    literals: Vec<i64>,
    names: Vec<Name>,
    rules_begun: bool,
}

impl Draft {
    /// No line is read yet.
    fn new(default: Ends) -> Draft {
        Draft {
            default,
            ranges: Vec::new(),
            primitives: Vec::new(),
            lengths: Vec::new(),
            literals: Vec::new(),
            names: Vec::new(),
            rules_begun: false,
        }
    }

    fn counts(&self) -> Counts {
        Counts {
            quantities: self.quantities(),
            declared: self.names.len(),
            primitives: self.primitives.len() / 4,
            clauses: self.lengths.len(),
            literals: self.literals.len() / 3,
        }
    }

    fn quantities(&self) -> usize {
        self.ranges.len() / 2
    }

    /// Takes one line in, or gives the lowest number of its faults. The
    /// grounds are tested in the order of their numbers.
    fn line(&mut self, text: &[u8]) -> Result<(), u8> {
        if opens_too_many(text) {
            return Err(23);
        }
        match parse::line(text).map_err(|_| 24)? {
            Line::Range { .. } if self.rules_begun => Err(24),
            Line::Range { name, ends } => self.declare(name, ends.unwrap_or(self.default)),
            Line::Rule(nodes) => self.rule(&nodes),
        }
    }

    fn declare(&mut self, name: Name, (low, high): Ends) -> Result<(), u8> {
        if self.find(name).is_some() {
            return Err(25);
        }
        if low > high {
            return Err(26);
        }
        self.names.push(name);
        self.ranges.extend([low, high]);
        self.count_quantities()
    }

    fn find(&self, name: Name) -> Option<usize> {
        self.names.iter().position(|&declared| declared == name)
    }

    fn count_quantities(&self) -> Result<(), u8> {
        if self.quantities() > MOST_QUANTITIES {
            return Err(29);
        }
        Ok(())
    }

    fn rule(&mut self, nodes: &[Node]) -> Result<(), u8> {
        self.rules_begun = true;
        let is_unknown =
            |node: &Node| matches!(node, Node::Name(name) if self.find(*name).is_none());
        if nodes.iter().any(is_unknown) {
            return Err(25);
        }
        if nodes.iter().filter(|node| asks_equality(node)).count() > 1 {
            return Err(27);
        }
        let clause = self.helpers(nodes)?;
        self.count_quantities()?;
        self.add_clauses(clause);
        Ok(())
    }

    /// Makes the helpers of a rule and gives back its clause. This goes on
    /// past the 128th quantity, as a later helper may leave plus or minus M.
    fn helpers(&mut self, nodes: &[Node]) -> Result<Clause, u8> {
        let mut clause = Clause::default();
        let mut held = Vec::with_capacity(nodes.len());
        for &node in nodes {
            let quantity = match node {
                Node::Number(value) => self.helper((value, value))?,
                Node::Name(name) => self.find(name).ok_or(25)?,
                Node::Sum(a, b) => self.sum(held[a], held[b])?,
                Node::Difference(a, b) => self.difference(held[a], held[b])?,
                Node::Product(a, b) => self.product(held[a], held[b])?,
                Node::Square(a) => self.square(held[a])?,
                Node::Compare(part, relation, a, b) => {
                    let difference = self.difference(held[a], held[b])?;
                    clause.add(difference, asked(part, relation));
                    difference
                }
            };
            held.push(quantity);
        }
        Ok(clause)
    }

    /// A new quantity, if its range is within plus or minus M.
    fn helper(&mut self, (low, high): Ends) -> Result<usize, u8> {
        if low < -M || high > M {
            return Err(28);
        }
        self.ranges.extend([low, high]);
        Ok(self.quantities() - 1)
    }

    fn range(&self, quantity: usize) -> Ends {
        (self.ranges[2 * quantity], self.ranges[2 * quantity + 1])
    }

    fn sum(&mut self, a: usize, b: usize) -> Result<usize, u8> {
        let sum = self.helper(sums(self.range(a), self.range(b)))?;
        self.primitive(1, sum, a, b);
        Ok(sum)
    }

    /// The difference d = a - b is written as a = d + b.
    fn difference(&mut self, a: usize, b: usize) -> Result<usize, u8> {
        let difference = self.helper(differences(self.range(a), self.range(b)))?;
        self.primitive(1, a, difference, b);
        Ok(difference)
    }

    /// Saturated end products lie beyond M wherever the exact ones do.
    fn product(&mut self, a: usize, b: usize) -> Result<usize, u8> {
        let product = self.helper(end_products(self.range(a), self.range(b)))?;
        self.primitive(2, product, a, b);
        Ok(product)
    }

    fn square(&mut self, a: usize) -> Result<usize, u8> {
        let square = self.helper(squares(self.range(a)))?;
        self.primitive(3, square, a, 0);
        Ok(square)
    }

    fn primitive(&mut self, kind: i64, z: usize, x: usize, y: usize) {
        self.primitives.extend([kind, z as i64, x as i64, y as i64]);
    }

    /// Stores a rule's clause; with an equality demand, a second one alike
    /// but for that place.
    fn add_clauses(&mut self, mut clause: Clause) {
        self.add_clause(&clause.literals);
        if let Some(place) = clause.equality {
            clause.literals[place][1] = AT_LEAST;
            self.add_clause(&clause.literals);
        }
    }

    fn add_clause(&mut self, literals: &[[i64; 3]]) {
        self.lengths.push(literals.len() as i64);
        self.literals.extend(literals.as_flattened());
    }
}

/// The literals of a rule, and where its equality demand stands among them.
#[derive(Default)]
struct Clause {
    literals: Vec<[i64; 3]>,
    equality: Option<usize>,
}

impl Clause {
    /// Adds what is asked of the difference of two sides.
    fn add(&mut self, difference: usize, asked: Relation) {
        let mut literal = |sense, bound| self.literals.push([difference as i64, sense, bound]);
        match asked {
            Relation::AtMost => literal(AT_MOST, 0),
            Relation::Below => literal(AT_MOST, -1),
            Relation::AtLeast => literal(AT_LEAST, 0),
            Relation::Above => literal(AT_LEAST, 1),
            Relation::Unequal => {
                literal(AT_MOST, -1);
                literal(AT_LEAST, 1);
            }
            Relation::Equal => {
                literal(AT_MOST, 0);
                self.equality = Some(self.literals.len() - 1);
            }
        }
    }
}

/// The relation that a rule asks for: in the if part the opposite stands.
fn asked(part: Part, relation: Relation) -> Relation {
    match part {
        Part::Demand => relation,
        Part::Condition => relation.opposite(),
    }
}

fn asks_equality(node: &Node) -> bool {
    matches!(*node, Node::Compare(part, relation, ..) if asked(part, relation) == Relation::Equal)
}

/// Whether more than 16 brackets are open at some piece, opened less closed.
/// The pieces are counted whatever the line looks like otherwise.
fn opens_too_many(text: &[u8]) -> bool {
    let mut open = 0;
    text.split(|&byte| byte == b' ').any(|piece| {
        match piece {
            b"(" => open += 1,
            b")" => open -= 1,
            _ => {}
        }
        open > MOST_OPEN
    })
}
