//! From a text to the records of its net.

use crate::check;
use crate::error::Error;
use crate::errors::Errors;
use crate::item::{Item, Statement};
use crate::labels::{Labels, NoByte};
use crate::names::Names;
use crate::parse::{parse, Parsed};
use crate::record::{Bytes, Record};
use crate::token::Place;
use crate::written::written;
use engine::Pick;

/// The records of a text, with the statements that they come from, and the labels.
pub struct Assembled {
    pub file: Vec<u8>,
    statements: Vec<Statement>,
    labels: Labels,
}

/// Fails where the text breaks the grammar; whether the file loads is asked apart.
pub fn assemble(text: &str) -> Result<Assembled, Errors> {
    let (assembled, errors) = read(text);
    errors.or(assembled)
}

/// Fails where the text breaks the grammar or loading refuses the file, with all that is wrong.
pub fn assemble_checked(text: &str) -> Result<Assembled, Errors> {
    let (assembled, mut errors) = read(text);
    if errors.is_empty() {
        return assembled.check().map(|()| assembled);
    }
    errors.append(check::faults(&assembled.statements, &assembled.labels).errors);
    errors.in_order();
    Err(errors)
}

/// What could be assembled, and where the text breaks the grammar.
fn read(text: &str) -> (Assembled, Errors) {
    let Parsed { statements, labels, mut errors } = parse(text);
    let mut file = Vec::new();
    let mut nodes = 0;
    for statement in &statements {
        file.extend(record(statement, nodes, &labels, &mut errors).into_iter().flatten());
        nodes += usize::from(statement.item.is_step());
    }
    errors.in_order();
    (Assembled { file, statements, labels }, errors)
}

impl Assembled {
    /// Fails where loading refuses the file, at the statements whose records are at fault.
    pub fn check(&self) -> Result<(), Errors> {
        match engine::load(&self.file) {
            Ok(_) => Ok(()),
            Err(fault) => Err(self.refused(fault.number, fault.place)),
        }
    }

    /// All that is wrong with a file that loading refuses by this number at this record, which is
    /// told first.
    pub fn refused(&self, number: u8, record: usize) -> Errors {
        let faults = check::faults(&self.statements, &self.labels);
        if faults.first == Some((number, record)) {
            return faults.errors;
        }
        let general = match self.place(record) {
            Some(place) => Error::refused(place, number, record),
            None => Error::refused_file(number, record),
        };
        let mut errors = Errors::from(general);
        errors.append(faults.errors);
        errors
    }

    /// What loading accepts and is hardly meant.
    pub fn warnings(&self) -> Errors {
        check::warnings(&self.statements, &self.labels)
    }

    /// Where the statement of a record begins; None past the last record.
    pub fn place(&self, record: usize) -> Option<Place> {
        self.statements.get(record).map(|statement| statement.place)
    }

    /// The statement of a record as this text has it, in one line and without comments.
    pub fn written(&self, text: &str, record: usize) -> Option<String> {
        let statement = self.statements.get(record)?;
        Some(written(text, statement.place, statement.end))
    }

    /// The first node of the process that a node belongs to.
    pub fn process(&self, node: usize) -> Option<usize> {
        self.labels.process(node)
    }

    pub fn names(&self) -> Names {
        self.labels.names()
    }
}

/// The record of a statement, none of a broken one; `node` is the number that a step there has.
fn record(
    statement: &Statement,
    node: usize,
    labels: &Labels,
    errors: &mut Errors,
) -> Option<Bytes> {
    // A target that is none has its error, and any byte.
    let mut byte = |target: Result<u8, NoByte>| {
        target.unwrap_or_else(|no_byte| {
            labels.complain(&no_byte, errors);
            0
        })
    };
    let record = match &statement.item {
        Item::Alias { site, locality, meant } => {
            Record::new(1).head(&[site.0, locality.0, meant.0])
        }
        Item::Table { site, name, columns } => {
            Record::new(2).head(&[site.0]).name(*name).columns(columns)
        }
        Item::Row { site, name, row } => Record::new(3).head(&[site.0]).name(*name).row(row),
        Item::Step(step) => {
            let next = byte(labels.next(&step.next, node, statement.place));
            let body = step.body.as_ref().map_or(0, |body| byte(labels.target(body)));
            Record::new(step.act.kind()).head(&[next, body]).act(&step.act)
        }
        Item::Start { site, node } => Record::new(32).head(&[site.0, byte(labels.target(node))]),
        Item::Pick(Pick { thread, row }) => Record::new(33).head(&[*thread, *row]),
        Item::Broken(_) => return None,
    };
    Some(record.bytes())
}
