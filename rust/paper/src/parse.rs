//! The form of a line, without any look at what its names mean.

use crate::frame::Ends;
use crate::token::{signed_number, token, Name, Relation, Token};

/// A line that is none of the forms: refusal 24.
#[derive(Clone, Copy, Debug, PartialEq, Eq)]
pub struct Malformed;

/// A well-formed line. A range line without ends means the default range,
/// which is the version's.
#[derive(Debug, PartialEq, Eq)]
pub enum Line {
    Range { name: Name, ends: Option<Ends> },
    Rule(Vec<Node>),
}

/// Which part of a rule a comparison stands in.
#[derive(Clone, Copy, Debug, PartialEq, Eq)]
pub enum Part {
    Condition,
    Demand,
}

/// The number of a node in its rule.
pub type NodeId = usize;

/// A part of a rule. The nodes of a rule stand in the order in which they are
/// finished: operands before their operation, left before right, both sides
/// before their comparison. That is also the order of the helpers.
#[derive(Clone, Copy, Debug, PartialEq, Eq)]
pub enum Node {
    Number(i64),
    Name(Name),
    Sum(NodeId, NodeId),
    Difference(NodeId, NodeId),
    Product(NodeId, NodeId),
    Square(NodeId),
    Compare(Part, Relation, NodeId, NodeId),
}

/// Reads one line. The caller has made sure that at most 16 brackets are
/// open at any piece, so the calls of `atom` to `expression` don't run deep.
pub fn line(text: &[u8]) -> Result<Line, Malformed> {
    let mut pieces = text.split(|&byte| byte == b' ');
    let first = pieces.next().map_or(Token::Bad, token);
    match first {
        Token::Range => range_line(pieces),
        Token::Must => Reader::new(pieces).must(),
        Token::If => Reader::new(pieces).condition_rule(),
        _ => Err(Malformed),
    }
}

fn range_line<'a>(mut pieces: impl Iterator<Item = &'a [u8]>) -> Result<Line, Malformed> {
    let Some(Token::Name(name)) = pieces.next().map(token) else {
        return Err(Malformed);
    };
    let ends = match (pieces.next(), pieces.next(), pieces.next()) {
        (None, _, _) => None,
        (Some(low), Some(high), None) => Some((signed(low)?, signed(high)?)),
        _ => return Err(Malformed),
    };
    Ok(Line::Range { name, ends })
}

fn signed(piece: &[u8]) -> Result<i64, Malformed> {
    signed_number(piece).ok_or(Malformed)
}

/// Reads a rule, one token ahead.
struct Reader<I> {
    pieces: I,
    ahead: Token,
    nodes: Vec<Node>,
}

impl<'a, I: Iterator<Item = &'a [u8]>> Reader<I> {
    fn new(pieces: I) -> Self {
        let mut reader = Reader { pieces, ahead: Token::End, nodes: Vec::new() };
        reader.step();
        reader
    }

    fn step(&mut self) {
        self.ahead = self.pieces.next().map_or(Token::End, token);
    }

    /// Steps over the token ahead if it is the wanted one.
    fn take(&mut self, wanted: Token) -> bool {
        let there = self.ahead == wanted;
        if there {
            self.step();
        }
        there
    }

    fn expect(&mut self, wanted: Token) -> Result<(), Malformed> {
        self.take(wanted).then_some(()).ok_or(Malformed)
    }

    fn add(&mut self, node: Node) -> NodeId {
        self.nodes.push(node);
        self.nodes.len() - 1
    }

    /// What stands after `must`.
    fn must(mut self) -> Result<Line, Malformed> {
        self.comparisons(Part::Demand, Token::Or)?;
        self.expect(Token::End)?;
        Ok(Line::Rule(self.nodes))
    }

    /// What stands after `if`.
    fn condition_rule(mut self) -> Result<Line, Malformed> {
        self.comparisons(Part::Condition, Token::And)?;
        self.expect(Token::Then)?;
        self.must()
    }

    fn comparisons(&mut self, part: Part, joint: Token) -> Result<(), Malformed> {
        self.comparison(part)?;
        while self.take(joint) {
            self.comparison(part)?;
        }
        Ok(())
    }

    fn comparison(&mut self, part: Part) -> Result<(), Malformed> {
        let left = self.expression()?;
        let Token::Compare(relation) = self.ahead else {
            return Err(Malformed);
        };
        self.step();
        let right = self.expression()?;
        self.add(Node::Compare(part, relation, left, right));
        Ok(())
    }

    fn expression(&mut self) -> Result<NodeId, Malformed> {
        let mut left = self.term()?;
        loop {
            if self.take(Token::Plus) {
                let right = self.term()?;
                left = self.add(Node::Sum(left, right));
            } else if self.take(Token::Minus) {
                let right = self.term()?;
                left = self.add(Node::Difference(left, right));
            } else {
                return Ok(left);
            }
        }
    }

    fn term(&mut self) -> Result<NodeId, Malformed> {
        let mut left = self.factor()?;
        while self.take(Token::Times) {
            let right = self.factor()?;
            left = self.add(Node::Product(left, right));
        }
        Ok(left)
    }

    fn factor(&mut self) -> Result<NodeId, Malformed> {
        let atom = self.atom()?;
        if self.take(Token::Squared) {
            return Ok(self.add(Node::Square(atom)));
        }
        Ok(atom)
    }

    fn atom(&mut self) -> Result<NodeId, Malformed> {
        let first = self.ahead;
        self.step();
        match first {
            Token::Number(value) => Ok(self.add(Node::Number(value))),
            Token::Name(name) => Ok(self.add(Node::Name(name))),
            Token::Open => {
                let inner = self.expression()?;
                self.expect(Token::Close)?;
                Ok(inner)
            }
            _ => Err(Malformed),
        }
    }
}

#[cfg(test)]
mod tests {
    use super::*;

    #[test]
    fn forms() {
        for good in [
            "range a",
            "range a 0 5",
            "range a -5K -1",
            "range a 5 1",
            "must a = 1",
            "must ( ( a ) ) <= a ^2 * 3 - b or 1 > 2",
            "must ( a ^2 ) ^2 = 1",
            "if a = 1 then b = 1",
            "if a = 1 and b != 2 then c < 1 or d > 1",
        ] {
            assert!(line(good.as_bytes()).is_ok(), "{good}");
        }
        for bad in [
            "",
            " ",
            "ranges a",
            "range",
            "range a 1",
            "range a 1 2 3",
            "range if",
            "range 5",
            "range a - 5 1",
            "range a -0 1",
            "range  a",
            " range a",
            "range a ",
            "must",
            "must a",
            "must a <",
            "must < a",
            "must a < b < c",
            "must ( a < b )",
            "must a ^2 ^2 < 1",
            "must a ^3 < 1",
            "must a^2 < 1",
            "must a < -5",
            "must a < b and c < d",
            "must a < b or",
            "must a < b c",
            "must ( a < b",
            "must a ) < b",
            "must ( ) < 1",
            "if a < b",
            "if then a < b",
            "if a < b then",
            "if a < b or c < d then e < f",
            "if a < b then c < d and e < f",
            "if a < b then c < d then e < f",
            "must - a < b",
            "must a == b",
            "must a + < b",
            "must a b < c",
            "must a < b or or c < d",
            "and",
        ] {
            assert_eq!(line(bad.as_bytes()), Err(Malformed), "{bad}");
        }
    }
}
