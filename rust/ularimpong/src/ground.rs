//! The grounds on which a call refuses, by the numbers of documents 01 and 02.

/// A ground for a refusal: 1 to 8 of a solve, 19 to 30 of a sheet.
#[derive(Clone, Copy, Debug, PartialEq, Eq, PartialOrd, Ord, Hash)]
pub enum Ground {
    Quantities,
    Lists,
    Ranges,
    Primitives,
    Literals,
    Budget,
    Room,
    Leading,
    ShortLists,
    Text,
    FirstLine,
    Version,
    Brackets,
    Form,
    Names,
    Order,
    Equalities,
    Beyond,
    Many,
    Undeclared,
    /// No ground of the documents. The library is proved never to give one.
    Unknown(usize),
}

/// What is said of a ground. No advice is the empty text.
struct Row {
    ground: Ground,
    number: usize,
    meaning: &'static str,
    advice: &'static str,
}

/// Every ground there is, by number (a solve looks at 8 before 7). The words from
/// 7 on are those of docs/SHEETS.md, those before 7 document 01's.
const ROWS: [Row; 20] = [
    Row {
        ground: Ground::Quantities,
        number: 1,
        meaning: "the range list is odd, or does not have 1 to 128 quantities",
        advice: "",
    },
    Row {
        ground: Ground::Lists,
        number: 2,
        meaning: "a list is too long, the primitive list is not in fours, a clause length is \
                  below 0, or the literal list is not three times the sum of lengths",
        advice: "",
    },
    Row {
        ground: Ground::Ranges,
        number: 3,
        meaning: "a range has its low end above its high end, or an end beyond plus or minus \
                  10^12",
        advice: "",
    },
    Row {
        ground: Ground::Primitives,
        number: 4,
        meaning: "a primitive has an unknown kind, a missing quantity, or y not 0 in kind 3",
        advice: "",
    },
    Row {
        ground: Ground::Literals,
        number: 5,
        meaning: "a literal has a missing quantity, an unknown sense, or a bound beyond plus \
                  or minus 10^12",
        advice: "",
    },
    Row {
        ground: Ground::Budget,
        number: 6,
        meaning: "the budget is outside 0 to 1,000,000,000",
        advice: "",
    },
    Row {
        ground: Ground::Room,
        number: 7,
        meaning: "the search would need more room than the desk has: 2n(D+1) numbers, at most \
                  8,192, where n counts the quantities with all helpers (numbers, operations \
                  and comparisons) and D the halvings of the declared ranges",
        advice: "give tighter declared ranges, write fewer rules or helpers, declare a number \
                 that is compared often (`range limit 65535 65535`)",
    },
    Row {
        ground: Ground::Leading,
        number: 8,
        meaning: "the leading number is outside 1 to n, or a later quantity is neither one value \
                  nor the result of a primitive over lower-numbered ones",
        advice: "give n as the leading number, which is never refused",
    },
    Row {
        ground: Ground::ShortLists,
        number: 19,
        meaning: "a list shorter than its full size",
        advice: "lend 256, 1,024, 256 and 3,072 numbers and 1,024 bytes",
    },
    Row {
        ground: Ground::Text,
        number: 20,
        meaning: "the text is empty, longer than 4,096 bytes, has a byte other than LF and 32 \
                  to 126, or does not end in LF",
        advice: "look for tabs, CR LF line ends, letters with accents, a missing last LF",
    },
    Row {
        ground: Ground::FirstLine,
        number: 21,
        meaning: "line 1 is not `RUL`, one space and a version",
        advice: "write `RUL 2`",
    },
    Row {
        ground: Ground::Version,
        number: 22,
        meaning: "the version is not 1 or 2",
        advice: "write `RUL 2`",
    },
    Row {
        ground: Ground::Brackets,
        number: 23,
        meaning: "more than 16 brackets are open at some place",
        advice: "split the rule; declare a part of it as a quantity",
    },
    Row {
        ground: Ground::Form,
        number: 24,
        meaning: "the line is none of the forms, or a range line stands after a rule",
        advice: "look at spaces round brackets and signs, `^2`, numbers as `007` or `1000G` \
                 (above 10^12), negative numbers in a rule, empty lines, nine letters, upper case",
    },
    Row {
        ground: Ground::Names,
        number: 25,
        meaning: "a name is declared twice, or used and not declared",
        advice: "",
    },
    Row {
        ground: Ground::Order,
        number: 26,
        meaning: "a range's low end is above its high end",
        advice: "",
    },
    Row {
        ground: Ground::Equalities,
        number: 27,
        meaning: "a rule has more than one equality demand (`=` behind must or then, `!=` \
                  behind if)",
        advice: "declare `range step 1 2` and write `must bits = step * 8`",
    },
    Row {
        ground: Ground::Beyond,
        number: 28,
        meaning: "a helper's range leaves plus or minus 10^12",
        advice: "give tighter ranges: `range w` goes up to 200,000 (1,000,000 in version 1), \
                 and three such multiplied pass 10^12",
    },
    Row {
        ground: Ground::Many,
        number: 29,
        meaning: "more than 128 quantities, numbers, operations and comparisons counted",
        advice: "fewer rules, or declare repeated parts",
    },
    Row { ground: Ground::Undeclared, number: 30, meaning: "no quantity is declared", advice: "" },
];

impl Ground {
    /// Every ground of the documents, by number.
    pub fn all() -> impl Iterator<Item = Ground> {
        ROWS.iter().map(|row| row.ground)
    }

    /// The ground that has a number in the documents.
    pub fn from_number(number: usize) -> Ground {
        let row = ROWS.iter().find(|row| row.number == number);
        row.map_or(Ground::Unknown(number), |row| row.ground)
    }

    /// The documents' number of the ground.
    pub fn number(self) -> usize {
        match self {
            Ground::Unknown(number) => number,
            known => known.row().map_or(0, |row| row.number),
        }
    }

    /// What the ground means.
    pub fn meaning(self) -> &'static str {
        self.row().map_or("no ground of the documents", |row| row.meaning)
    }

    /// What to do about it, where there is something to say.
    pub fn advice(self) -> Option<&'static str> {
        self.row().map(|row| row.advice).filter(|advice| !advice.is_empty())
    }

    fn row(self) -> Option<&'static Row> {
        ROWS.iter().find(|row| row.ground == self)
    }
}

#[cfg(test)]
mod tests {
    use super::*;

    const SHEETS: &str = include_str!("../../../docs/SHEETS.md");

    #[test]
    fn numbers_go_there_and_back() {
        for ground in Ground::all() {
            assert_eq!(Ground::from_number(ground.number()), ground);
        }
        assert_eq!(Ground::from_number(9), Ground::Unknown(9));
        assert_eq!(Ground::Unknown(9).number(), 9);
    }

    #[test]
    fn the_words_are_those_of_the_page_on_sheets() {
        for ground in Ground::all().filter(|ground| ground.number() >= 7) {
            let start = format!("| {} |", ground.number());
            let row = SHEETS.lines().find(|line| line.starts_with(&start)).unwrap_or("");
            assert!(row.contains(ground.meaning()), "{ground:?}");
            assert!(ground.advice().is_none_or(|advice| SHEETS.contains(advice)), "{ground:?}");
        }
    }
}
