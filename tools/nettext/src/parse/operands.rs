//! Operands, and the tuples, templates and rows made of them.

use super::cursor::Cursor;
use crate::error::Error;
use crate::token::{Place, Token};
use crate::words::numbered;
use engine::{Operand, Operands, Row, Value};

const LENGTH: usize = 4;

/// Which operands may stand at a place, beside values.
#[derive(Clone, Copy)]
pub struct Allowed {
    variables: bool,
    sums: bool,
    formals: bool,
    expected: &'static str,
}

const VALUES: Allowed = Allowed {
    variables: false,
    sums: false,
    formals: false,
    expected: "a value such as 40, \"RIG1\" or @1",
};
const SELECTED: Allowed =
    Allowed { variables: true, expected: "a value or a variable, no sum and no formal", ..VALUES };
pub const TUPLE: Allowed =
    Allowed { sums: true, expected: "a value, a variable or a sum, no formal", ..SELECTED };
pub const TEMPLATE: Allowed =
    Allowed { formals: true, expected: "a value, a variable, a sum or a formal", ..TUPLE };

impl Cursor<'_> {
    /// The values of a row.
    pub fn row(&mut self) -> Result<Row, Error> {
        let operands = self.operands("a tuple \"(..)\"", VALUES)?;
        let value = |operand: &Operand| match operand {
            Operand::Constant(value) => Some(*value),
            _ => None,
        };
        Ok(operands.iter().filter_map(value).collect())
    }

    pub fn tuple(&mut self) -> Result<Operands, Error> {
        self.operands("a tuple \"(..)\"", TUPLE)
    }

    /// The tuple of a select, which has no sums.
    pub fn selected(&mut self) -> Result<Operands, Error> {
        self.operands("a tuple \"(..)\"", SELECTED)
    }

    pub fn template(&mut self) -> Result<Operands, Error> {
        self.operands("a template \"(..)\"", TEMPLATE)
    }

    fn operands(&mut self, expected: &str, allowed: Allowed) -> Result<Operands, Error> {
        if !self.passes_sign("(") {
            return Err(self.unexpected(expected));
        }
        let mut operands = Operands::default();
        loop {
            let place = self.place();
            let operand = self.operand(allowed)?;
            new_formal(operand, &operands, place)?;
            operands.push(operand);
            if self.closes(operands.len())? {
                return Ok(operands);
            }
        }
    }

    /// Passes what follows the item of a list: whether the list is over.
    pub fn closes(&mut self, length: usize) -> Result<bool, Error> {
        if self.passes_sign(")") {
            return Ok(true);
        }
        if length == LENGTH {
            return Err(self.unexpected("\")\" after four"));
        }
        if self.passes_sign(",") {
            return Ok(false);
        }
        Err(self.unexpected("\",\" or \")\""))
    }

    pub fn operand(&mut self, allowed: Allowed) -> Result<Operand, Error> {
        match self.peek() {
            Token::Text(text) => {
                let value = Value::Text(*text);
                self.advance();
                Ok(Operand::Constant(value))
            }
            Token::Number(_) | Token::Sign("-") => {
                Ok(Operand::Constant(Value::Int(self.int(false)?)))
            }
            Token::Sign("@") => {
                self.advance();
                let locality = self.locality("a locality 0..7 or self")?;
                Ok(Operand::Constant(Value::Loc(locality)))
            }
            Token::Sign("!") if allowed.formals => {
                self.advance();
                Ok(Operand::Formal(self.variable()?))
            }
            Token::Word(word) if allowed.variables && numbered(word, 'x').is_some() => {
                let variable = self.variable()?;
                self.sum(variable, allowed)
            }
            _ => Err(self.unexpected(allowed.expected)),
        }
    }

    /// What follows a variable: it may be the first part of a sum.
    fn sum(&mut self, variable: u8, allowed: Allowed) -> Result<Operand, Error> {
        let negated = match self.peek() {
            Token::Sign("+") => false,
            Token::Sign("-") => true,
            _ => return Ok(Operand::Variable(variable)),
        };
        if !allowed.sums {
            return Err(self.unexpected("\",\" or \")\": a select stores no sums"));
        }
        self.advance();
        Ok(Operand::Plus(variable, self.int(negated)?))
    }
}

/// No variable is a formal twice.
fn new_formal(operand: Operand, before: &Operands, place: Place) -> Result<(), Error> {
    match operand {
        Operand::Formal(variable) if before.contains(&operand) => {
            let found = format!("\"!x{variable}\" again");
            Err(Error::unexpected(place, &found, "another formal"))
        }
        _ => Ok(()),
    }
}
