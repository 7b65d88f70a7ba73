//! The tokens still to read.

use crate::error::Error;
use crate::lexer::Tokens;
use crate::token::{Place, Placed, Token};
use crate::words::{begins_step, is_reserved, STATEMENTS};

/// The next token, and those after it. The end of the text is never passed.
pub struct Cursor<'a> {
    next: Placed,
    rest: Tokens<'a>,
}

impl<'a> Cursor<'a> {
    pub fn new(text: &'a str) -> Cursor<'a> {
        let mut rest = Tokens::new(text);
        Cursor { next: rest.next(), rest }
    }

    pub fn peek(&self) -> &Token {
        &self.next.token
    }

    pub fn place(&self) -> Place {
        self.next.place
    }

    pub fn advance(&mut self) {
        if self.next.token != Token::TextEnd {
            self.next = self.rest.next();
        }
    }

    /// Passes the rest of a statement that began at `start` and has an error. The next one begins
    /// after the end of the line, or with a line whose first word begins a statement.
    pub fn pass_statement(&mut self, start: Place) {
        if self.place() == start {
            self.advance();
        }
        while *self.peek() != Token::TextEnd && !self.passes_line_end() {
            if self.next.first && self.begins_statement() {
                self.rest.close();
                return;
            }
            self.advance();
        }
    }

    fn begins_statement(&self) -> bool {
        self.at_label() || self.peek_word().is_some_and(|word| STATEMENTS.contains(&word))
    }

    /// The error that the next token is not what could stand here. A broken text has its own.
    pub fn unexpected(&self, expected: &str) -> Error {
        match self.peek() {
            Token::Broken(error) => Error::clone(error),
            token => Error::unexpected(self.place(), &token.described(), expected),
        }
    }

    /// The next token if it is a word.
    pub fn peek_word(&self) -> Option<&str> {
        match self.peek() {
            Token::Word(word) => Some(word),
            _ => None,
        }
    }

    /// Whether a label comes next: a word of its own and a colon.
    pub fn at_label(&self) -> bool {
        self.peek_word().is_some_and(|word| !is_reserved(word)) && self.rest.colon_follows()
    }

    pub fn at_step(&self) -> bool {
        self.peek_word().is_some_and(begins_step)
    }

    /// Passes the word if it comes next.
    pub fn passes_word(&mut self, word: &str) -> bool {
        let there = self.peek_word() == Some(word);
        if there {
            self.advance();
        }
        there
    }

    /// Passes the sign if it comes next.
    pub fn passes_sign(&mut self, sign: &str) -> bool {
        let there = matches!(self.peek(), Token::Sign(next) if *next == sign);
        if there {
            self.advance();
        }
        there
    }

    /// Passes the line's end if it comes next.
    pub fn passes_line_end(&mut self) -> bool {
        let there = *self.peek() == Token::LineEnd;
        if there {
            self.advance();
        }
        there
    }

    pub fn word(&mut self, word: &str) -> Result<(), Error> {
        if self.passes_word(word) {
            return Ok(());
        }
        Err(self.unexpected(&format!("\"{word}\"")))
    }

    pub fn sign(&mut self, sign: &str) -> Result<(), Error> {
        if self.passes_sign(sign) {
            return Ok(());
        }
        Err(self.unexpected(&format!("\"{sign}\"")))
    }
}
