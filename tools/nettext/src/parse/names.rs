//! Names of tables, labels, sites, localities and table variables.

use super::cursor::Cursor;
use crate::error::Error;
use crate::item::Target;
use crate::token::Token;
use crate::words::{is_reserved, numbered};
use engine::{Address, Locality, Operand, Site, Text, Value};

const NAME: &str = "a table's name";
const NAME_LENGTH: usize = 4;

impl Cursor<'_> {
    /// A word of at most four characters, or any name in quotes.
    pub fn name(&mut self) -> Result<Text, Error> {
        let name = match self.peek() {
            Token::Text(text) => *text,
            Token::Word(word) if is_reserved(word) => {
                return Err(self.unexpected(&format!("{NAME}; \"{word}\" must stand in quotes")));
            }
            Token::Word(word) => filled(word)
                .ok_or_else(|| self.unexpected("a table's name of at most four characters"))?,
            _ => return Err(self.unexpected(NAME)),
        };
        self.advance();
        Ok(name)
    }

    pub fn label(&mut self) -> Result<String, Error> {
        match self.peek_word() {
            Some(word) if !is_reserved(word) => {
                let label = word.to_owned();
                self.advance();
                Ok(label)
            }
            _ => Err(self.unexpected("a label")),
        }
    }

    pub fn target(&mut self, expected: &str) -> Result<Target, Error> {
        if self.passes_word("node") {
            return Ok(Target::Node(self.number(0..=255, "a node's number 0..255")?));
        }
        let place = self.place();
        let label = self.label().map_err(|_| self.unexpected(expected))?;
        Ok(Target::Label(label, place))
    }

    pub fn site(&mut self) -> Result<Site, Error> {
        self.word("site")?;
        Ok(Site(self.number(0..=7, "a site 0..7")?))
    }

    pub fn at_site(&mut self) -> Result<Site, Error> {
        self.word("at")?;
        self.site()
    }

    /// A name and the locality that says where the table is looked up.
    pub fn address(&mut self) -> Result<Address, Error> {
        let name = self.name()?;
        if !self.passes_sign("@") {
            return Err(self.unexpected("a locality such as @1"));
        }
        let is_variable = self.peek_word().is_some_and(|word| numbered(word, 'x').is_some());
        let locality = match is_variable {
            true => Operand::Variable(self.variable()?),
            false => {
                let locality = self.locality("a locality 0..7, self or a variable")?;
                Operand::Constant(Value::Loc(locality))
            }
        };
        Ok(Address { name, locality })
    }

    /// What follows the `@` of a locality.
    pub fn locality(&mut self, expected: &str) -> Result<Locality, Error> {
        if self.passes_word("self") {
            return Ok(Locality::SELF);
        }
        Ok(Locality(self.number(0..=7, expected)?))
    }

    pub fn variable(&mut self) -> Result<u8, Error> {
        self.numbered('x', 16, "a variable x0..x15")
    }

    pub fn table_variable(&mut self) -> Result<u8, Error> {
        self.numbered('T', 2, "a table variable T0 or T1")
    }

    pub fn is_table_variable(&self) -> bool {
        self.peek_word().is_some_and(|word| numbered(word, 'T').is_some())
    }
}

/// A word as a name, filled up with blanks.
fn filled(word: &str) -> Option<Text> {
    let mut name = [b' '; NAME_LENGTH];
    name.get_mut(..word.len())?.copy_from_slice(word.as_bytes());
    Some(Text(name))
}
