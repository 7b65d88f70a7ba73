//! Picks as they are written on a command line or in a file.

use embed::Pick;
use nettext::lone_return;

/// Picks parted by blanks, each a thread place, or a thread place, a colon and a row place.
pub fn parse(text: &str) -> Result<Vec<Pick>, String> {
    text.split_whitespace().map(pick).collect()
}

/// The picks of a file, in any number of lines; a comment goes from `#` to the end of its line.
/// What is wrong is told with the file's name and the line.
pub fn parse_list(name: &str, bytes: &[u8]) -> Result<Vec<Pick>, String> {
    let text = std::str::from_utf8(bytes)
        .map_err(|error| format!("{name}: no text, at byte {}", error.valid_up_to()))?;
    if let Some(error) = lone_return(text) {
        return Err(error.shown(name, text).trim_end().to_owned());
    }
    let text = text.strip_prefix('\u{feff}').unwrap_or(text);
    let mut picks = Vec::new();
    for (number, line) in text.lines().enumerate() {
        let (line, _comment) = line.split_once('#').unwrap_or((line, ""));
        for word in line.split_whitespace() {
            picks.push(pick(word).map_err(|wrong| format!("{name}:{}: {wrong}", number + 1))?);
        }
    }
    Ok(picks)
}

/// The row place is 0 where none is said, as in the text form.
fn pick(word: &str) -> Result<Pick, String> {
    let (thread, row) = word.split_once(':').unwrap_or((word, "0"));
    match (thread.parse(), row.parse()) {
        (Ok(thread), Ok(row)) => Ok(Pick { thread, row }),
        _ => Err(format!(
            "found {}, expected a pick THREAD or THREAD:ROW, with places 0..255",
            shown(word)
        )),
    }
}

/// A word in quotes, of which a long one is cut, and without what would upset a terminal.
fn shown(word: &str) -> String {
    const LONGEST: usize = 40;
    let cut = if word.chars().count() > LONGEST { ".." } else { "" };
    let start: String = word.chars().take(LONGEST).collect();
    format!("\"{}{cut}\"", start.escape_debug())
}

#[cfg(test)]
mod tests {
    use super::*;

    const PICKS: [Pick; 2] = [Pick { thread: 0, row: 0 }, Pick { thread: 1, row: 3 }];

    #[test]
    fn threads_and_rows() {
        assert_eq!(parse("0:0 1:3").as_deref(), Ok(&PICKS[..]));
        assert_eq!(parse(" 0\n 1:3 ").as_deref(), Ok(&PICKS[..]));
        assert_eq!(parse("").as_deref(), Ok(&[][..]));
    }

    #[test]
    fn what_is_no_pick() {
        for word in ["x", "0:", ":0", "256", "0:256", "-1", "0,1", "0:0:0"] {
            let message = parse(&format!("0:0 {word}")).expect_err("a word that is no pick");
            assert!(
                message.starts_with(&format!("found \"{word}\", expected a pick")),
                "{message}"
            );
        }
    }

    #[test]
    fn a_file_of_picks() {
        let list = |text: &str| parse_list("list", text.as_bytes());
        assert_eq!(list("0   # the first\n\n# none\n1:3").as_deref(), Ok(&PICKS[..]));
        assert_eq!(list("\u{feff}0 1:3\r\n").as_deref(), Ok(&PICKS[..]));
        assert_eq!(list("").as_deref(), Ok(&[][..]));
        let wrong = "list:3: found \"7-0\", expected a pick THREAD or THREAD:ROW, with places \
                     0..255";
        assert_eq!(list("0\n# 7-0\n1 7-0\n"), Err(wrong.to_owned()));
        assert_eq!(parse_list("list", b"0 \xff"), Err("list: no text, at byte 2".to_owned()));
    }

    /// The comment would hide all picks after it.
    #[test]
    fn lines_that_end_in_carriage_returns_alone() {
        let wrong = parse_list("list", b"# a\r0\r1:3\r").expect_err("one line");
        assert!(wrong.starts_with("list: lines end in carriage returns alone, and"), "{wrong}");
        assert!(parse_list("list", b"0 # a\r\n1\r").is_ok_and(|picks| picks.len() == 2));
    }

    #[test]
    fn a_long_word_is_cut() {
        let message = parse(&"x".repeat(1000)).expect_err("a word that is no pick");
        assert!(message.len() < 120, "{message}");
    }
}
