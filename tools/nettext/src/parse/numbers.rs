//! Numbers, each within the range of its place.

use super::cursor::Cursor;
use crate::error::Error;
use crate::token::Token;
use crate::words::numbered;
use std::ops::RangeInclusive;

impl Cursor<'_> {
    /// A number in a range of bytes.
    pub fn number(&mut self, range: RangeInclusive<u8>, expected: &str) -> Result<u8, Error> {
        let number = match self.peek() {
            Token::Number(digits) => in_range(digits, range),
            _ => None,
        };
        self.pass(number, expected)
    }

    /// A word such as `x3`: a letter and a number below `limit`.
    pub fn numbered(&mut self, letter: char, limit: u8, expected: &str) -> Result<u8, Error> {
        let digits = self.peek_word().and_then(|word| numbered(word, letter));
        let number = digits.and_then(|digits| in_range(digits, 0..=limit - 1));
        self.pass(number, expected)
    }

    /// An Int with its sign, where `negated` says that a minus stands before it already.
    pub fn int(&mut self, negated: bool) -> Result<i32, Error> {
        let place = self.place();
        let minus = self.passes_sign("-");
        let Token::Number(digits) = self.peek() else {
            return Err(self.unexpected("a number"));
        };
        let sign = if minus { "-" } else { "" };
        let found = format!("{sign}{digits}");
        let number = found.parse::<i64>().ok().map(|int| if negated { -int } else { int });
        let Some(int) = number.and_then(|number| i32::try_from(number).ok()) else {
            return Err(Error::unexpected(place, &format!("\"{found}\""), "an Int of 32 bits"));
        };
        self.advance();
        Ok(int)
    }

    /// Passes the token that gave this number.
    fn pass(&mut self, number: Option<u8>, expected: &str) -> Result<u8, Error> {
        let number = number.ok_or_else(|| self.unexpected(expected))?;
        self.advance();
        Ok(number)
    }
}

fn in_range(digits: &str, range: RangeInclusive<u8>) -> Option<u8> {
    digits.parse().ok().filter(|number| range.contains(number))
}
