//! A statement as its text has it.

use crate::error::BYTE_ORDER_MARK;
use crate::token::Place;

/// What stands from one place to another, in one line: comments are left out, and a blank parts
/// what stood in different lines.
pub fn written(text: &str, from: Place, to: Place) -> String {
    let text = text.strip_prefix(BYTE_ORDER_MARK).unwrap_or(text);
    let lines = text.lines().enumerate().skip(from.line - 1).take(to.line + 1 - from.line);
    let parts = lines.map(|(number, line)| {
        let until = if number + 1 == to.line { to.column } else { usize::MAX };
        let since = if number + 1 == from.line { from.column } else { 1 };
        part(line, since, until)
    });
    parts.filter(|part| !part.is_empty()).collect::<Vec<_>>().join(" ")
}

/// The columns of a line from one on and before another, up to a comment.
fn part(line: &str, since: usize, until: usize) -> String {
    let line: String = line.chars().take(until - 1).collect();
    let kept = line.chars().take(uncommented(&line)).skip(since - 1).collect::<String>();
    kept.trim().to_owned()
}

/// How many characters stand before the comment of a line; a `#` in quotes begins none.
fn uncommented(line: &str) -> usize {
    let (mut quoted, mut escaped) = (false, false);
    let comment = line.chars().position(|character| {
        match character {
            '"' if !escaped => quoted = !quoted,
            '#' if !quoted => return true,
            _ => {}
        }
        escaped = character == '\\' && !escaped;
        false
    });
    comment.unwrap_or(line.chars().count())
}

#[cfg(test)]
mod tests {
    use super::*;

    fn place(line: usize, column: usize) -> Place {
        Place { line, column }
    }

    #[test]
    fn a_part_of_a_line() {
        assert_eq!(written("  drop CARD @1  # gone", place(1, 3), place(1, 15)), "drop CARD @1");
        assert_eq!(written("pick", place(1, 1), place(1, 5)), "pick");
        assert_eq!(written("\u{feff}pick", place(1, 1), place(1, 5)), "pick");
    }

    #[test]
    fn lines_are_joined_and_comments_left_out() {
        let text = "p: insert (\"#\\\"\\\\\",  # a text\n\n   # more\n   2)\ninto CARD @1 # last\n";
        let told = "insert (\"#\\\"\\\\\", 2) into CARD @1";
        assert_eq!(written(text, place(1, 4), place(5, 13)), told);
    }
}
