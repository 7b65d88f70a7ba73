//! From characters to tokens, one at a time.

use crate::error::{Error, BYTE_ORDER_MARK};
use crate::token::{quoted_character, Place, Placed, Token};
use crate::words::{begins_word, goes_on, in_word};
use engine::Text;
use std::iter::Enumerate;
use std::str::Lines;

/// Longer signs first, so that `<=` is not read as `<`.
const SIGNS: [&str; 18] =
    ["!=", "==", "<=", ">=", "(", ")", ",", ":", "@", "!", "+", "-", "=", "<", ">", "≠", "≤", "≥"];

const TEXT_LENGTH: usize = 4;

/// The tokens of a text. A `LineEnd` comes only where a statement ends.
pub struct Tokens<'a> {
    lines: Enumerate<Lines<'a>>,
    reader: Reader<'a>,
    /// Where the last token ended, before any comment.
    end: Place,
    /// The token after a line's end, which says whether the statement ends there.
    held: Option<Placed>,
    /// How many parentheses are open.
    open: usize,
}

impl<'a> Tokens<'a> {
    pub fn new(text: &'a str) -> Tokens<'a> {
        let text = text.strip_prefix(BYTE_ORDER_MARK).unwrap_or(text);
        let mut lines = text.lines().enumerate();
        let first = lines.next().map_or("", |(_, line)| line);
        let reader = Reader { line: 1, column: 1, rest: first, began: false };
        Tokens { lines, reader, end: Place { line: 1, column: 1 }, held: None, open: 0 }
    }

    /// Takes out the line ends inside parentheses and before a word that goes on.
    pub fn next(&mut self) -> Placed {
        loop {
            let placed = self.held.take().unwrap_or_else(|| self.of_lines());
            match placed.token {
                Token::Sign("(") => self.open += 1,
                Token::Sign(")") => self.open = self.open.saturating_sub(1),
                Token::LineEnd if self.goes_on() => continue,
                _ => {}
            }
            return placed;
        }
    }

    /// Whether a statement goes on after the end of its line.
    fn goes_on(&mut self) -> bool {
        let after = self.of_lines();
        let goes_on = matches!(&after.token, Token::Word(word) if goes_on(word));
        self.held = Some(after);
        goes_on || self.open > 0
    }

    /// Whether a colon follows in the line, after the token that came last.
    pub fn colon_follows(&self) -> bool {
        self.reader.rest.trim_start().starts_with(':')
    }

    /// A statement begins here, whatever was left open before.
    pub fn close(&mut self) {
        self.open = 0;
    }

    /// The next token, with the ends of all lines that have tokens.
    fn of_lines(&mut self) -> Placed {
        loop {
            if let Some(placed) = self.reader.token() {
                self.end = self.reader.place();
                return placed;
            }
            if self.reader.began {
                self.reader.began = false;
                return Placed { token: Token::LineEnd, place: self.end, first: false };
            }
            let Some((number, line)) = self.lines.next() else {
                return Placed { token: Token::TextEnd, place: self.end, first: false };
            };
            self.reader = Reader { line: number + 1, column: 1, rest: line, began: false };
        }
    }
}

/// The part of a line that is still to read.
struct Reader<'a> {
    line: usize,
    column: usize,
    rest: &'a str,
    /// Whether the line has given a token.
    began: bool,
}

impl<'a> Reader<'a> {
    fn place(&self) -> Place {
        Place { line: self.line, column: self.column }
    }

    fn take(&mut self, bytes: usize) -> &'a str {
        let (taken, rest) = self.rest.split_at(bytes);
        self.column += taken.chars().count();
        self.rest = rest;
        taken
    }

    fn take_while(&mut self, belongs: impl Fn(char) -> bool) -> &'a str {
        let length = self.rest.find(|character| !belongs(character));
        self.take(length.unwrap_or(self.rest.len()))
    }

    /// None at the end of the line or at a comment.
    fn token(&mut self) -> Option<Placed> {
        self.take_while(char::is_whitespace);
        let place = self.place();
        let token = match self.rest.chars().next()? {
            '#' => {
                self.rest = "";
                return None;
            }
            '"' => self.text_or_broken(),
            '0'..='9' => Token::Number(self.take_while(|c| c.is_ascii_digit()).to_owned()),
            first if begins_word(first) => Token::Word(self.take_while(in_word).to_owned()),
            first => self.sign(first),
        };
        let first = !self.began;
        self.began = true;
        Some(Placed { token, place, first })
    }

    fn sign(&mut self, first: char) -> Token {
        let known = SIGNS.into_iter().find(|sign| self.rest.starts_with(sign));
        self.take(known.map_or(first.len_utf8(), str::len));
        known.map_or(Token::Stranger(first), Token::Sign)
    }

    /// Nothing more is read of a line with a broken text: where that ends is unknown.
    fn text_or_broken(&mut self) -> Token {
        self.text().map_or_else(
            |error| {
                self.rest = "";
                Token::Broken(Box::new(error))
            },
            Token::Text,
        )
    }

    /// A text in quotes; short ones are filled up with blanks, as document 01 writes "A   ".
    fn text(&mut self) -> Result<Text, Error> {
        let start = self.place();
        self.take(1);
        let mut bytes = Vec::new();
        while let Some(byte) = self.text_byte()? {
            bytes.push(byte);
        }
        if bytes.len() > TEXT_LENGTH {
            let found = format!("a text of {} characters", bytes.len());
            return Err(Error::unexpected(start, &found, "at most four"));
        }
        bytes.resize(TEXT_LENGTH, b' ');
        Ok(Text(bytes.try_into().expect("four bytes")))
    }

    /// The next byte of a text; none at the closing quote.
    fn text_byte(&mut self) -> Result<Option<u8>, Error> {
        let place = self.place();
        let mut characters = self.rest.chars();
        match (characters.next(), characters.next()) {
            (None, _) => Err(Error::unexpected(place, "the end of the line", "a closing quote")),
            (Some('"'), _) => {
                self.take(1);
                Ok(None)
            }
            (Some('\\'), Some(escaped @ ('"' | '\\'))) => {
                self.take(2);
                Ok(Some(escaped as u8))
            }
            (Some('\\'), _) => Err(Error::unexpected(place, "\"\\\"", "\\\" or \\\\")),
            (Some(character @ ' '..='~'), _) => {
                self.take(1);
                Ok(Some(character as u8))
            }
            (Some(character), _) => {
                let found = format!("{} in a text", quoted_character(character));
                Err(Error::unexpected(place, &found, "a character from blank to ~"))
            }
        }
    }
}
