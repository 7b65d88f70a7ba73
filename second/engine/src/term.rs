//! What the operands of a node come to in one step. Variables are looked up once, before any row,
//! so that judging a row touches the row alone.

use crate::list::List;
use crate::net::{Filter, Test, Variables};
use crate::number;
use crate::operand::{formal_column, Operand};
use crate::pattern::Pattern;
use crate::quirk::{wrong, Quirk};
use crate::relation::{Columns, Row};
use crate::value::{Kind, Value};
use std::cmp::Ordering;

/// An operand read in the thread alone: its value, or none. A formal reads nothing.
pub fn read(operand: Operand, variables: &Variables) -> Result<Option<Value>, u8> {
    let bound = |v: u8| variables[usize::from(v)].ok_or(number::UNBOUND);
    match operand {
        Operand::Constant(value) => Ok(Some(value)),
        Operand::Variable(v) => bound(v).map(Some),
        Operand::Plus(v, more) => bound(v).map(|value| value.plus(more)),
        Operand::Formal(_) => Ok(None),
    }
}

/// An operand of the predicate or t.
#[derive(Clone, Copy)]
pub enum Term {
    Fixed(Option<Value>),
    Column(u8),
    ColumnPlus(u8, i32),
}

impl Default for Term {
    fn default() -> Self {
        Term::Fixed(None)
    }
}

impl Term {
    fn new(operand: Operand, template: &[Operand], variables: &Variables) -> Result<Term, u8> {
        let column = |v| formal_column(template, v);
        let term = match operand {
            Operand::Variable(v) => column(v).map(Term::Column),
            Operand::Plus(v, more) => column(v).map(|at| Term::ColumnPlus(at, more)),
            _ => None,
        };
        match (term, read(operand, variables)) {
            (Some(term), _) => Ok(term),
            (None, Err(_)) if wrong(Quirk::UnboundNoValue) => Ok(Term::Fixed(None)),
            (None, value) => value.map(Term::Fixed),
        }
    }

    fn value(self, row: &[Value]) -> Option<Value> {
        match self {
            Term::Fixed(value) => value,
            Term::Column(at) => Some(row[usize::from(at)]),
            Term::ColumnPlus(at, more) => row[usize::from(at)].plus(more),
        }
    }

    fn kind(self, columns: &Columns) -> Kind {
        match self {
            Term::Fixed(value) => value.unwrap_or_default().kind(),
            Term::Column(at) => columns[usize::from(at)],
            Term::ColumnPlus(..) => Kind::Int,
        }
    }
}

/// A tuple t.
#[derive(Clone, Copy)]
pub struct Terms(List<Term, 4>);

impl Terms {
    /// The template gives the formals that t may read; an insert has none.
    pub fn new(
        tuple: &[Operand],
        template: &[Operand],
        variables: &Variables,
    ) -> Result<Terms, u8> {
        let mut terms = List::default();
        for operand in tuple {
            terms.push(Term::new(*operand, template, variables)?);
        }
        Ok(Terms(terms))
    }

    /// The row that t gives for a row; none where a component has no value.
    pub fn row(&self, from: &[Value]) -> Option<Row> {
        let mut row = Row::default();
        for term in self.0.iter() {
            row.push(term.value(from)?);
        }
        Some(row)
    }

    /// The kinds of the components, over rows of these columns.
    pub fn columns(&self, of: &Columns) -> Columns {
        self.0.iter().map(|term| term.kind(of)).collect()
    }

    /// Leaves only the components that read the row.
    pub fn drop_fixed(&mut self) {
        self.0.retain(|term| !matches!(term, Term::Fixed(_)));
    }
}

/// A template with a predicate.
pub struct Selection {
    pub pattern: Pattern,
    predicate: Option<(Test, Term, Term)>,
}

impl Selection {
    pub fn new(filter: &Filter, variables: &Variables) -> Result<Selection, u8> {
        let pattern = Pattern::new(&filter.template, variables)?;
        let term = |operand| Term::new(operand, &filter.template, variables);
        let predicate = match &filter.predicate {
            Some(predicate) => {
                Some((predicate.test, term(predicate.left)?, term(predicate.right)?))
            }
            None => None,
        };
        Ok(Selection { pattern, predicate })
    }

    /// Whether the row matches and satisfies the predicate.
    pub fn takes(&self, row: &[Value]) -> bool {
        self.pattern.matches(row)
            && self
                .predicate
                .is_none_or(|(test, left, right)| holds(test, left.value(row), right.value(row)))
    }
}

/// A missing value or unlike kinds make every test false.
fn holds(test: Test, left: Option<Value>, right: Option<Value>) -> bool {
    let (Some(left), Some(right)) = (left, right) else {
        return false;
    };
    match (test, left.order(right)) {
        (Test::Unequal, None) => wrong(Quirk::UnlikeUnequal),
        (_, None) => false,
        (Test::Equal, Some(order)) => order == Ordering::Equal,
        (Test::Unequal, Some(order)) => order != Ordering::Equal,
        (Test::Less, Some(order)) => order == Ordering::Less,
        (Test::AtMost, Some(order)) => order != Ordering::Greater,
    }
}
