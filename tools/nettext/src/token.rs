//! What a text consists of: words, numbers, texts in quotes and signs, each with its place.

use crate::error::Error;
use engine::Text;

/// Line and column of a character, both from 1.
#[derive(Clone, Copy, PartialEq, Eq, PartialOrd, Ord, Debug)]
pub struct Place {
    pub line: usize,
    pub column: usize,
}

#[derive(Clone, PartialEq, Eq, Debug)]
pub enum Token {
    Word(String),
    /// The digits of a number; how large it may be depends on where it stands.
    Number(String),
    Text(Text),
    Sign(&'static str),
    /// A character that begins no token.
    Stranger(char),
    /// A text in quotes that is none, and why.
    Broken(Box<Error>),
    LineEnd,
    TextEnd,
}

#[derive(Clone, PartialEq, Eq, Debug)]
pub struct Placed {
    pub token: Token,
    pub place: Place,
    /// Whether it is the first of its line.
    pub first: bool,
}

/// Of a word or a number an error shows so many characters.
const DESCRIBED: usize = 40;

impl Token {
    /// How an error names the token.
    pub fn described(&self) -> String {
        match self {
            Token::Word(word) => in_quotes(word),
            Token::Number(digits) => in_quotes(digits),
            Token::Text(text) => format!("the text {}", quoted(*text)),
            Token::Sign(sign) => format!("\"{sign}\""),
            Token::Stranger(stranger) => quoted_character(*stranger),
            Token::Broken(_) => "a broken text".to_owned(),
            Token::LineEnd => "the end of the line".to_owned(),
            Token::TextEnd => "the end of the text".to_owned(),
        }
    }
}

/// A word or a number as an error names it, the end of a long one left out.
pub fn in_quotes(word: &str) -> String {
    match word.char_indices().nth(DESCRIBED) {
        Some((end, _)) => format!("\"{}..\"", &word[..end]),
        None => format!("\"{word}\""),
    }
}

/// A character as an error names it; one that can't be seen by its number.
pub fn quoted_character(character: char) -> String {
    match character {
        '\'' => "\"'\"".to_owned(),
        _ => format!("\"{}\"", character.escape_debug()),
    }
}

/// A text in quotes, all four characters, as it would be read again.
pub fn quoted(text: Text) -> String {
    let mut written = String::from("\"");
    for byte in text.0 {
        if matches!(byte, b'"' | b'\\') {
            written.push('\\');
        }
        written.push(char::from(byte));
    }
    written.push('"');
    written
}
