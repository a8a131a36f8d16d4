//! The form of any text, decided by rewriting instead of parsing: each piece
//! of a line becomes one letter, and brackets are replaced from the inside.
//! What names and ranges mean is not looked at.

/// The refusal (20 to 24) and line that the form of a text alone leads to.
/// A fault of another kind in an earlier line would go before it.
pub fn fault(text: &[u8]) -> Option<(u8, usize)> {
    let sound = |&byte: &u8| byte == b'\n' || (b' '..=b'~').contains(&byte);
    if text.len() > 4_096 || text.last() != Some(&b'\n') || !text.iter().all(sound) {
        return Some((20, 0));
    }
    let text = String::from_utf8_lossy(text).into_owned();
    let mut lines = text.lines();
    match lines.next().and_then(version) {
        None => return Some((21, 1)),
        Some(1 | 2) => {}
        Some(_) => return Some((22, 1)),
    }
    let mut rules = 0;
    for (line, number) in lines.zip(2..) {
        if is_deep(line) {
            return Some((23, number));
        }
        let is_rule = is_rule(line);
        rules += usize::from(is_rule);
        let is_early_range = rules == 0 && is_range(line);
        if !is_rule && !is_early_range {
            return Some((24, number));
        }
    }
    None
}

fn version(line: &str) -> Option<u16> {
    let version = line.strip_prefix("RUL ")?.parse().ok()?;
    (line == format!("RUL {version}")).then_some(version)
}

fn is_deep(line: &str) -> bool {
    let pieces: Vec<&str> = line.split(' ').collect();
    let count = |end: usize, mark: &str| pieces[..end].iter().filter(|&&p| p == mark).count();
    (1..=pieces.len()).any(|end| count(end, "(") > 16 + count(end, ")"))
}

fn is_range(line: &str) -> bool {
    let pieces: Vec<&str> = line.split(' ').collect();
    match pieces[..] {
        ["range", name] => is_name(name),
        ["range", name, low, high] => is_name(name) && is_signed(low) && is_signed(high),
        _ => false,
    }
}

fn is_signed(piece: &str) -> bool {
    match piece.strip_prefix('-') {
        Some(digits) => is_number(digits) && !digits.starts_with('0'),
        None => is_number(piece),
    }
}

fn is_number(piece: &str) -> bool {
    let (digits, power) = match piece.chars().last() {
        Some('K') => (&piece[..piece.len() - 1], 1),
        Some('M') => (&piece[..piece.len() - 1], 2),
        Some('G') => (&piece[..piece.len() - 1], 3),
        _ => (piece, 0),
    };
    let value: u128 = match digits.parse() {
        Ok(value) if digits.len() < 20 => value,
        _ => return false,
    };
    // Writing the value again must give the same digits.
    value.to_string() == digits && value * 1_024u128.pow(power) <= 1_000_000_000_000
}

fn is_name(piece: &str) -> bool {
    (1..=8).contains(&piece.len())
        && piece.bytes().all(|byte| byte.is_ascii_lowercase())
        && !["range", "must", "if", "then", "and", "or"].contains(&piece)
}

/// One letter for a piece: `n` for what may be an atom, `?` for no token.
fn letter(piece: &str) -> char {
    match piece {
        "+" | "-" | "*" => '+',
        "<=" | "<" | ">=" | ">" | "=" | "!=" => '=',
        "^2" => '^',
        "(" => '(',
        ")" => ')',
        "and" => '&',
        "or" => '|',
        "then" => ':',
        _ if is_name(piece) || is_number(piece) => 'n',
        _ => '?',
    }
}

fn is_rule(line: &str) -> bool {
    let (first, rest) = line.split_once(' ').unwrap_or((line, ""));
    let Some(word) = without_brackets(rest.split(' ').map(letter).collect()) else {
        return false;
    };
    match (first, word.split_once(':')) {
        ("must", None) => is_joined(&word, '|'),
        ("if", Some((conditions, demands))) => {
            is_joined(conditions, '&') && is_joined(demands, '|')
        }
        _ => false,
    }
}

/// Replaces each bracketed expression by an atom, innermost first.
fn without_brackets(mut word: String) -> Option<String> {
    while let Some(close) = word.find(')') {
        let open = word[..close].rfind('(')?;
        if !is_expression(&word[open + 1..close]) {
            return None;
        }
        word.replace_range(open..=close, "n");
    }
    Some(word)
}

fn is_expression(word: &str) -> bool {
    word.split('+').all(|factor| factor == "n" || factor == "n^")
}

fn is_joined(word: &str, joint: char) -> bool {
    word.split(joint).all(|comparison| match comparison.split_once('=') {
        Some((left, right)) => is_expression(left) && is_expression(right),
        None => false,
    })
}
