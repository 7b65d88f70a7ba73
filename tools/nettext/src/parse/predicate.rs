//! Predicates: which of the rows that match a step means.

use super::cursor::Cursor;
use super::operands::TUPLE;
use crate::error::Error;
use crate::token::Token;
use engine::{Filter, Operands, Predicate, Test};

impl Cursor<'_> {
    /// The rest of a filter, whose template was read before.
    pub fn filter(&mut self, template: Operands) -> Result<Filter, Error> {
        let predicate = match self.passes_word("where") {
            true => self.predicate()?,
            false => None,
        };
        Ok(Filter { template, predicate })
    }

    /// `true` is the predicate that holds of every row.
    fn predicate(&mut self) -> Result<Option<Predicate>, Error> {
        if self.passes_word("true") {
            return Ok(None);
        }
        let left = self.operand(TUPLE)?;
        let (test, turned) = self.test()?;
        let right = self.operand(TUPLE)?;
        let (left, right) = if turned { (right, left) } else { (left, right) };
        Ok(Some(Predicate { test, left, right }))
    }

    /// A sign, and whether its sides are turned round: a > b is stored as b < a.
    fn test(&mut self) -> Result<(Test, bool), Error> {
        let test = match self.peek() {
            Token::Sign("=" | "==") => (Test::Equal, false),
            Token::Sign("!=" | "≠") => (Test::Unequal, false),
            Token::Sign("<") => (Test::Less, false),
            Token::Sign("<=" | "≤") => (Test::AtMost, false),
            Token::Sign(">") => (Test::Less, true),
            Token::Sign(">=" | "≥") => (Test::AtMost, true),
            _ => return Err(self.unexpected("a sign =, !=, <, <=, > or >=")),
        };
        self.advance();
        Ok(test)
    }
}
