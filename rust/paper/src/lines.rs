//! One line of a text.

/// The stretch of `text` at a line (counted from 1), without its LF, as start
/// and end. A missing line is the empty stretch at the text's end. An unended
/// last stretch is a line if it is not empty.
pub fn line_span(text: &[u8], line: usize) -> (usize, usize) {
    let nowhere = (text.len(), text.len());
    if line == 0 {
        return nowhere;
    }
    let mut start = 0;
    for _ in 1..line {
        match end_of_line(text, start) {
            end if end < text.len() => start = end + 1,
            _ => return nowhere,
        }
    }
    (start, end_of_line(text, start))
}

/// The place of the first LF from `start` on, or the end of the text.
fn end_of_line(text: &[u8], start: usize) -> usize {
    let length = text[start..].iter().position(|&byte| byte == b'\n');
    length.map_or(text.len(), |length| start + length)
}

#[cfg(test)]
mod tests {
    use super::line_span;

    #[test]
    fn lines_of_small_texts() {
        assert_eq!(line_span(b"", 0), (0, 0));
        assert_eq!(line_span(b"", 1), (0, 0));
        assert_eq!(line_span(b"\n", 1), (0, 0));
        assert_eq!(line_span(b"\n", 2), (1, 1));
        assert_eq!(line_span(b"ab\n\ncd", 1), (0, 2));
        assert_eq!(line_span(b"ab\n\ncd", 2), (3, 3));
        assert_eq!(line_span(b"ab\n\ncd", 3), (4, 6));
        assert_eq!(line_span(b"ab\n\ncd", 4), (6, 6));
        assert_eq!(line_span(b"ab\n\ncd", 0), (6, 6));
        assert_eq!(line_span(b"ab\n", usize::MAX), (3, 3));
    }
}
