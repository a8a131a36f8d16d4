//! Pieces of a line and what they mean.

use crate::M;

/// A name, padded with spaces.
pub type Name = [u8; 8];

/// How two sides are compared.
#[derive(Clone, Copy, Debug, PartialEq, Eq)]
pub enum Relation {
    AtMost,
    Below,
    AtLeast,
    Above,
    Equal,
    Unequal,
}

impl Relation {
    /// The relation that holds exactly where this one doesn't.
    pub fn opposite(self) -> Relation {
        match self {
            Relation::AtMost => Relation::Above,
            Relation::Below => Relation::AtLeast,
            Relation::AtLeast => Relation::Below,
            Relation::Above => Relation::AtMost,
            Relation::Equal => Relation::Unequal,
            Relation::Unequal => Relation::Equal,
        }
    }
}

/// A token; also `Bad` for a piece that is none, and `End` behind the last.
#[derive(Clone, Copy, Debug, PartialEq, Eq)]
pub enum Token {
    Number(i64),
    Name(Name),
    Compare(Relation),
    Range,
    Must,
    If,
    Then,
    And,
    Or,
    Open,
    Close,
    Plus,
    Minus,
    Times,
    Squared,
    Bad,
    End,
}

/// The token that a piece of a line is.
pub fn token(piece: &[u8]) -> Token {
    match piece {
        b"range" => Token::Range,
        b"must" => Token::Must,
        b"if" => Token::If,
        b"then" => Token::Then,
        b"and" => Token::And,
        b"or" => Token::Or,
        b"(" => Token::Open,
        b")" => Token::Close,
        b"+" => Token::Plus,
        b"-" => Token::Minus,
        b"*" => Token::Times,
        b"^2" => Token::Squared,
        b"<=" => Token::Compare(Relation::AtMost),
        b"<" => Token::Compare(Relation::Below),
        b">=" => Token::Compare(Relation::AtLeast),
        b">" => Token::Compare(Relation::Above),
        b"=" => Token::Compare(Relation::Equal),
        b"!=" => Token::Compare(Relation::Unequal),
        [b'a'..=b'z', ..] => name(piece).map_or(Token::Bad, Token::Name),
        _ => number(piece).map_or(Token::Bad, Token::Number),
    }
}

fn name(piece: &[u8]) -> Option<Name> {
    let mut name = [b' '; 8];
    if !piece.iter().all(u8::is_ascii_lowercase) {
        return None;
    }
    name.get_mut(..piece.len())?.copy_from_slice(piece);
    Some(name)
}

/// A number without sign, its value at most M.
fn number(piece: &[u8]) -> Option<i64> {
    let (digits, scale) = match piece {
        [digits @ .., b'K'] => (digits, 1_024),
        [digits @ .., b'M'] => (digits, 1_024 * 1_024),
        [digits @ .., b'G'] => (digits, 1_024 * 1_024 * 1_024),
        digits => (digits, 1),
    };
    let value = plain_digits(digits, M)?.checked_mul(scale)?;
    (value <= M).then_some(value)
}

/// A number as a range line has it: `-` may stand directly before the digits,
/// but not with the value 0.
pub fn signed_number(piece: &[u8]) -> Option<i64> {
    match piece {
        [b'-', digits @ ..] => number(digits).filter(|&value| value != 0).map(|value| -value),
        digits => number(digits),
    }
}

/// Digits without leading zeros, up to `most`. The test after each digit
/// keeps digit strings of any length from overflowing.
pub fn plain_digits(digits: &[u8], most: i64) -> Option<i64> {
    if digits.is_empty() || (digits[0] == b'0' && digits.len() > 1) {
        return None;
    }
    let mut value = 0;
    for &digit in digits {
        if !digit.is_ascii_digit() {
            return None;
        }
        value = 10 * value + i64::from(digit - b'0');
        if value > most {
            return None;
        }
    }
    Some(value)
}

#[cfg(test)]
mod tests {
    use super::*;

    #[test]
    fn numbers() {
        for (piece, value) in [
            ("0", Some(0)),
            ("0K", Some(0)),
            ("7", Some(7)),
            ("12K", Some(12_288)),
            ("1M", Some(1_048_576)),
            ("4G", Some(4_294_967_296)),
            ("931G", Some(999_653_638_144)),
            ("932G", None),
            ("1000G", None),
            ("953674M", Some(999_999_668_224)),
            ("953675M", None),
            ("976562500K", Some(M)),
            ("976562501K", None),
            ("1000000000000", Some(M)),
            ("1000000000001", None),
            ("17179869185G", None),
            ("18014398509481985K", None),
            ("99999999999999999999999999", None),
            ("00", None),
            ("007", None),
            ("00K", None),
            ("K", None),
            ("", None),
            ("1k", None),
            ("1KK", None),
            ("-5", None),
            ("+5", None),
        ] {
            assert_eq!(number(piece.as_bytes()), value, "{piece}");
        }
    }

    #[test]
    fn signed_numbers() {
        for (piece, value) in [
            ("-931G", Some(-999_653_638_144)),
            ("-932G", None),
            ("-976562500K", Some(-M)),
            ("-5K", Some(-5_120)),
            ("-0", None),
            ("-0K", None),
            ("--5", None),
            ("-", None),
            ("0", Some(0)),
        ] {
            assert_eq!(signed_number(piece.as_bytes()), value, "{piece}");
        }
    }

    #[test]
    fn names_and_marks() {
        assert_eq!(token(b"iff"), Token::Name(*b"iff     "));
        assert_eq!(token(b"abcdefgh"), Token::Name(*b"abcdefgh"));
        for bad in ["abcdefghi", "Abc", "aBc", "x^2", "((", "==", "^3", "", "x1", "-5"] {
            assert_eq!(token(bad.as_bytes()), Token::Bad, "{bad}");
        }
    }
}
