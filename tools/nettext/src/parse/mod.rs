//! From tokens to statements.

mod cursor;
mod names;
mod numbers;
mod operands;
mod predicate;
mod steps;

use crate::error::Error;
use crate::errors::Errors;
use crate::item::{Group, Item, Statement};
use crate::labels::Labels;
use crate::token::{Place, Token};
use crate::words::{begins_step, STATEMENTS, STEPS};
use cursor::Cursor;
use engine::{Locality, Pick};

/// What was read of a text.
pub struct Parsed {
    pub statements: Vec<Statement>,
    pub labels: Labels,
    /// Where it breaks the grammar.
    pub errors: Errors,
}

/// Goes on after an error with the next statement.
pub fn parse(text: &str) -> Parsed {
    let mut parser = Parser {
        cursor: Cursor::new(text),
        labels: Labels::default(),
        statements: Vec::new(),
        errors: Errors::default(),
        in_process: false,
    };
    while *parser.cursor.peek() != Token::TextEnd {
        let start = parser.cursor.place();
        if let Err(error) = parser.statement() {
            parser.errors.add(|| error);
            parser.cursor.pass_statement(start);
        }
    }
    let Parser { statements, labels, errors, .. } = parser;
    Parsed { statements, labels, errors }
}

struct Parser<'a> {
    cursor: Cursor<'a>,
    labels: Labels,
    statements: Vec<Statement>,
    errors: Errors,
    /// Whether a step may come here: steps belong to processes.
    in_process: bool,
}

impl Parser<'_> {
    fn statement(&mut self) -> Result<(), Error> {
        let place = self.cursor.place();
        if self.cursor.passes_word("process") {
            self.labels.begin_process(place);
            self.in_process = true;
            return self.label();
        }
        if self.in_process && self.cursor.at_label() {
            return self.label();
        }
        let meant = self.meant();
        match self.item() {
            Ok(item) => {
                self.push(place, item);
                self.line_end()
            }
            Err(error) => {
                self.push(place, Item::Broken(meant));
                Err(error)
            }
        }
    }

    fn push(&mut self, place: Place, item: Item) {
        self.in_process = item.is_step();
        self.labels.nodes += usize::from(self.in_process);
        let end = self.cursor.place();
        self.statements.push(Statement { place, end, item });
    }

    /// A label and a colon, before the step that it names or another label of that step.
    fn label(&mut self) -> Result<(), Error> {
        let place = self.cursor.place();
        match self.cursor.label() {
            Ok(label) => self.named(label, place),
            Err(error) => {
                self.labels.lost = true;
                return Err(error);
            }
        }
        self.cursor.sign(":")?;
        self.cursor.passes_line_end();
        if self.cursor.at_step() || self.cursor.at_label() {
            return Ok(());
        }
        let expected = format!("a step after the label: {}", STEPS.join(", "));
        let error = self.cursor.unexpected(&expected);
        self.push(place, Item::Broken(Some(Group::Steps)));
        Err(error)
    }

    fn named(&mut self, label: String, place: Place) {
        if let Err(again) = self.labels.name(label, place) {
            self.errors.add(|| again);
        }
    }

    fn line_end(&mut self) -> Result<(), Error> {
        if self.cursor.passes_line_end() || *self.cursor.peek() == Token::TextEnd {
            return Ok(());
        }
        Err(self.cursor.unexpected("the end of the line"))
    }

    /// What a statement is meant for, by its first word. An unknown word in a process is taken for
    /// a step.
    fn meant(&self) -> Option<Group> {
        match self.cursor.peek_word() {
            Some("alias") => Some(Group::Aliases),
            Some("table") => Some(Group::Tables),
            Some("row") => Some(Group::Rows),
            Some("start") => Some(Group::Starts),
            Some("pick") => Some(Group::Picks),
            _ if self.in_process || self.cursor.at_step() => Some(Group::Steps),
            _ => None,
        }
    }

    fn item(&mut self) -> Result<Item, Error> {
        if !self.in_process && (self.cursor.at_step() || self.cursor.at_label()) {
            self.labels.lost |= self.cursor.at_label();
            return Err(self.cursor.unexpected("\"process\" and a label before the first step"));
        }
        let read = match self.cursor.peek_word() {
            Some(word) if begins_step(word) => {
                return Ok(Item::Step(Box::new(self.cursor.step()?)))
            }
            Some("alias") => Cursor::alias,
            Some("table") => Cursor::table,
            Some("row") => Cursor::row_of_table,
            Some("start") => Cursor::start,
            Some("pick") => Cursor::pick,
            _ => {
                let expected = format!("a statement: {}", STATEMENTS.join(", "));
                return Err(self.cursor.unexpected(&expected));
            }
        };
        self.cursor.advance();
        read(&mut self.cursor)
    }
}

impl Cursor<'_> {
    fn alias(&mut self) -> Result<Item, Error> {
        self.sign("@")?;
        let locality = Locality(self.number(1..=7, "a locality 1..7")?);
        let site = self.at_site()?;
        self.word("is")?;
        Ok(Item::Alias { site, locality, meant: self.site()? })
    }

    fn table(&mut self) -> Result<Item, Error> {
        let name = self.name()?;
        let site = self.at_site()?;
        Ok(Item::Table { site, name, columns: self.columns()? })
    }

    fn row_of_table(&mut self) -> Result<Item, Error> {
        let row = self.row()?;
        self.word("in")?;
        let name = self.name()?;
        Ok(Item::Row { site: self.at_site()?, name, row })
    }

    fn start(&mut self) -> Result<Item, Error> {
        let node = self.target("a label or \"node\"")?;
        Ok(Item::Start { site: self.at_site()?, node })
    }

    /// The row place is 0 where none is said: only loops look at it.
    fn pick(&mut self) -> Result<Item, Error> {
        self.word("thread")?;
        let thread = self.number(0..=255, "a thread place 0..255")?;
        let row = match self.passes_word("row") {
            true => self.number(0..=255, "a row place 0..255")?,
            false => 0,
        };
        Ok(Item::Pick(Pick { thread, row }))
    }
}
