//! Texts that the smaller generators don't reach.

use brute::random::Random;

const WORDS: [&str; 24] = [
    "(", ")", "+", "-", "*", "^2", "<=", "<", ">=", ">", "=", "!=", "range", "must", "if", "then",
    "and", "or", "a", "b", "0", "1", "12K", "-3",
];

/// A sheet with one to three of its tokens moved, doubled, dropped or replaced:
/// near to a sheet of the forms, on either side of them.
pub fn shuffled(random: &mut Random, text: &str) -> String {
    let mut lines: Vec<String> = text.lines().map(str::to_string).collect();
    for _ in 0..1 + random.below(3) {
        // The first line has a group of its own.
        let place = (1 + random.below(lines.len())).min(lines.len() - 1);
        lines[place] = with_a_token_changed(random, &lines[place]);
    }
    lines.join("\n") + "\n"
}

fn with_a_token_changed(random: &mut Random, line: &str) -> String {
    let mut tokens: Vec<&str> = line.split(' ').collect();
    let place = random.below(tokens.len());
    let other = random.below(tokens.len());
    match random.below(5) {
        0 => tokens.swap(place, other),
        1 => tokens.insert(place, tokens[other]),
        2 => tokens.insert(place, random.pick::<&str>(&WORDS)),
        3 => tokens[place] = random.pick::<&str>(&WORDS),
        _ => {
            tokens.remove(place);
        }
    }
    tokens.join(" ")
}

/// The first line of a sheet, of one version or the other.
fn mark(random: &mut Random) -> String {
    random.pick::<&str>(&["RUL 1\n", "RUL 2\n"]).to_string()
}

/// A sheet whose first line is put together from likely pieces.
pub fn first_line(random: &mut Random) -> String {
    const PIECES: [&str; 18] = [
        "RUL", "RUL ", "RUL 1", "RUL 2", " ", "1", "0", "2", "3", "9", "65535", "65536", "6553",
        "K", "-", "rul", "(", "00000",
    ];
    const BODIES: [&str; 5] =
        ["\n", "\nrange a 0 9\n", "\nrange a 0 9\nmust a > 3\n", "\nrange a\n", ""];
    let mut text = match random.below(5) {
        0 => String::new(),
        1 => "RUL 1".to_string(),
        2 => "RUL 2".to_string(),
        _ => "RUL ".to_string(),
    };
    for _ in 0..random.below(4) {
        text += random.pick::<&str>(&PIECES);
    }
    text + random.pick::<&str>(&BODIES)
}

/// Default ranges, multiplied: on either side of plus or minus M, by version.
pub fn default_ranges(random: &mut Random) -> String {
    const NAMES: [&str; 4] = ["a", "b", "c", "d"];
    let names = &NAMES[..1 + random.below(4)];
    let mut text = mark(random);
    for name in names {
        text += &match random.below(3) {
            0 => format!("range {name} 0 {}\n", random.between(1, 9)),
            _ => format!("range {name}\n"),
        };
    }
    for _ in 0..random.below(3) {
        let factors: Vec<&str> =
            (0..1 + random.below(3)).map(|_| *random.pick::<&str>(names)).collect();
        let most = random.pick(&[5, 199_999, 200_000, 200_001, 999_999, 1_000_000, 1_000_001]);
        let op = random.pick::<&str>(&["<=", "<", ">=", ">"]);
        text += &format!("must {} {op} {most}\n", factors.join(" * "));
    }
    text
}

/// Range lines and a rule with numbers near what may be written.
pub fn spelled_numbers(random: &mut Random) -> String {
    let mut text = mark(random);
    for name in ["a", "b"] {
        if random.once_in(3) {
            text += &format!("range {name} 0 1\n");
        } else {
            let (low, high) = (spelled(random, true), spelled(random, true));
            text += &format!("range {name} {low} {high}\n");
        }
    }
    text + &format!("must a <= {} + b\n", spelled(random, false))
}

fn spelled(random: &mut Random, signed: bool) -> String {
    const DIGITS: [&str; 20] = [
        "0",
        "1",
        "9",
        "10",
        "999",
        "1000",
        "1001",
        "931",
        "932",
        "953674",
        "953675",
        "976562500",
        "976562501",
        "1000000",
        "1000001",
        "1000000000",
        "1000000000000",
        "1000000000001",
        "18446744073709551616",
        "9223372036854775808",
    ];
    let sign = if signed && random.once_in(3) { "-" } else { "" };
    let digits = match random.below(12) {
        0..=4 => random.pick::<&str>(&DIGITS).to_string(),
        5..=10 => random.between(0, 2_000).to_string(),
        _ => (0..1 + random.below(24)).map(|_| random.below(10).to_string()).collect(),
    };
    let suffix = random.pick::<&str>(&["", "", "", "", "", "K", "K", "M", "G", "k"]);
    format!("{sign}{digits}{suffix}")
}

/// A sheet with many declarations and rules, up to and past every limit.
pub fn long(random: &mut Random) -> String {
    let names: Vec<String> = (0..1 + random.below(70)).map(name).collect();
    let mut text = mark(random);
    for name in &names {
        text += &format!("range {name} {} {}\n", random.between(-9, 3), random.between(4, 40));
    }
    let length = 500 + random.below(3_700);
    while text.len() < length {
        text += &rule(random, &names);
    }
    text
}

/// One of many names, of one to eight letters.
fn name(index: usize) -> String {
    let letter = |value: usize| char::from(b'a' + (value % 26) as u8);
    let stem = format!("{}{}", letter(index), letter(index / 26));
    stem + &"x".repeat(index % 7)
}

fn rule(random: &mut Random, names: &[String]) -> String {
    let demand = comparisons(random, names, " or ");
    if random.once_in(2) {
        return format!("must {demand}\n");
    }
    format!("if {} then {demand}\n", comparisons(random, names, " and "))
}

/// Equality demands are kept few, as two of them in a rule are refused.
fn comparisons(random: &mut Random, names: &[String], joint: &str) -> String {
    let mut words = Vec::new();
    for _ in 0..1 + random.below(3) {
        let op = if random.once_in(12) {
            random.pick::<&str>(&["=", "!="])
        } else {
            random.pick::<&str>(&["<=", "<", ">=", ">"])
        };
        let left = expression(random, names, 2);
        let right = expression(random, names, 1);
        words.push(format!("{left} {op} {right}"));
    }
    words.join(joint)
}

fn expression(random: &mut Random, names: &[String], depth: usize) -> String {
    if depth == 0 || random.once_in(2) {
        return match random.below(5) {
            0 => random.between(0, 60).to_string(),
            _ => random.pick(names).clone(),
        };
    }
    let left = expression(random, names, depth - 1);
    let right = expression(random, names, depth - 1);
    match random.below(6) {
        0 => format!("( {left} ) ^2"),
        1 => format!("( {left} - {right} )"),
        2 => format!("{left} * ( {right} )"),
        3 => format!("{left} - {right}"),
        _ => format!("{left} + {right}"),
    }
}

/// A sheet of exactly so many bytes, at least 200. Brackets fill it up, as
/// they cost four bytes a pair and make no helper.
pub fn of_length(random: &mut Random, length: usize) -> String {
    const DEEPEST: usize = 15;
    let nested = |pairs: usize| format!("{}a{}", "( ".repeat(pairs), " )".repeat(pairs));
    let mut text = mark(random) + "range a 0 ";
    // The digits of the range make up what is no multiple of four.
    let plain = text.len() + "\n".len();
    let digits = 1 + (length - plain - 1) % 4;
    text += &format!("{}\n", &"1000"[..digits]);
    while text.len() < length {
        let pairs = (length - text.len() - "must a <= a\n".len()) / 4;
        // What is left must be room for another rule, or nothing.
        let pairs = if pairs <= 2 * DEEPEST { pairs } else { (pairs - 3).min(2 * DEEPEST) };
        let left = pairs.min(DEEPEST);
        text += &format!("must {} <= {}\n", nested(left), nested(pairs - left));
    }
    text
}

/// Bytes of every kind, or of the kinds that sheets have, mostly few.
pub fn any_bytes(random: &mut Random) -> Vec<u8> {
    let length = match random.below(20) {
        0 => random.below(4_200),
        _ => random.below(40),
    };
    let is_any = random.once_in(3);
    let mut text = if random.once_in(2) { mark(random).into_bytes() } else { Vec::new() };
    text.extend((0..length).map(|_| {
        if is_any {
            random.bits() as u8
        } else {
            *random.pick(b" \n()+-*^2<>=!abRUL019KMG~\x7f\t")
        }
    }));
    if !random.once_in(4) {
        text.push(b'\n');
    }
    text
}
