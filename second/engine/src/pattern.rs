//! A template T under a thread's variables, and how it looks at a row: field by field from the
//! first on, up to the first that does not match.

use crate::list::List;
use crate::net::Variables;
use crate::number;
use crate::operand::{Operand, Operands};
use crate::quirk::{wrong, Quirk};
use crate::relation::{Columns, Row};
use crate::term::read;
use crate::value::Value;

/// What a look at a row came to.
#[derive(Clone, Copy, PartialEq, Eq, Debug)]
pub struct Look {
    pub matches: bool,
    /// How many fields were looked at: those up to and with the first that does not match, or all.
    pub fields: usize,
}

/// A look at a row outside of any step, which refuses nothing: an unbound variable has no value.
pub fn look(template: &Operands, variables: &Variables, row: &Row) -> Look {
    Pattern::unjudged(template, variables).look(row)
}

/// A place of a template: a formal matches anything, an operand with no value nothing.
#[derive(Clone, Copy, Default)]
enum Cell {
    #[default]
    Any,
    Equal(Option<Value>),
}

impl Cell {
    fn new(operand: Operand, variables: &Variables) -> Result<Cell, u8> {
        match operand {
            Operand::Formal(v) => match variables[usize::from(v)] {
                old @ Some(_) if wrong(Quirk::OldBindings) => Ok(Cell::Equal(old)),
                _ => Ok(Cell::Any),
            },
            operand => read(operand, variables).map(Cell::Equal),
        }
    }

    fn matches(self, value: Value) -> bool {
        match self {
            Cell::Any => true,
            Cell::Equal(wanted) => wanted.is_some_and(|wanted| wanted.matches(value)),
        }
    }
}

/// A template T.
pub struct Pattern(List<Cell, 4>);

impl Pattern {
    /// Refuses a template that reads an unbound variable.
    pub fn new(template: &[Operand], variables: &Variables) -> Result<Pattern, u8> {
        let mut cells = List::default();
        for operand in template {
            cells.push(Cell::new(*operand, variables)?);
        }
        Ok(Pattern(cells))
    }

    /// The same where nothing is refused.
    pub fn unjudged(template: &Operands, variables: &Variables) -> Pattern {
        let cells = template.iter().map(|operand| Cell::new(*operand, variables));
        Pattern(cells.map(|cell| cell.unwrap_or(Cell::Equal(None))).collect())
    }

    /// Refuses a template whose length differs from the columns.
    pub fn suits(&self, columns: &Columns) -> Result<(), u8> {
        if self.0.len() == columns.len() {
            return Ok(());
        }
        Err(number::MISFIT)
    }

    /// The answer alone, which is all that a step needs.
    pub fn matches(&self, row: &[Value]) -> bool {
        self.look(row).matches
    }

    /// Looks at the fields that T and the row both have. A row of another length does not match.
    pub fn look(&self, row: &[Value]) -> Look {
        let failing = self.0.iter().zip(row).position(|(cell, value)| !cell.matches(*value));
        let matches = failing.is_none() && self.0.len() == row.len();
        Look { matches, fields: self.counted(row, failing) }
    }

    /// The count of fields by the place of the one that fails, if any.
    fn counted(&self, row: &[Value], failing: Option<usize>) -> usize {
        let shared = self.0.len().min(row.len());
        match failing {
            Some(place) if wrong(Quirk::LookFailingUncounted) => place,
            Some(_) if wrong(Quirk::LookAllCounted) => shared,
            Some(_) if wrong(Quirk::LookFromLast) => self.counted_from_last(row),
            Some(place)
                if wrong(Quirk::LookConstantsFirst) || wrong(Quirk::LookFormalsUncounted) =>
            {
                place + 1 - self.formals(place)
            }
            None if wrong(Quirk::LookFormalsUncounted) => shared - self.formals(shared),
            Some(place) => place + 1,
            None => shared,
        }
    }

    /// For wrong engines: the fields up to and with the last that does not match, from the end.
    fn counted_from_last(&self, row: &[Value]) -> usize {
        let matching = |(cell, value): &(&Cell, &Value)| cell.matches(**value);
        self.0.iter().zip(row).rev().take_while(matching).count() + 1
    }

    /// For wrong engines: the formals among the first places.
    fn formals(&self, places: usize) -> usize {
        self.0[..places].iter().filter(|cell| matches!(cell, Cell::Any)).count()
    }
}
