//! Columns and rows, alike in tables and table variables.

use crate::list::List;
use crate::value::{Kind, Value};

pub type Columns = List<Kind, 4>;
pub type Row = List<Value, 4>;

#[derive(Clone, Copy, PartialEq, Eq, Debug, Default)]
pub struct Relation {
    pub columns: Columns,
    pub rows: List<Row, 16>,
}

impl Relation {
    pub fn new(columns: Columns) -> Relation {
        Relation { columns, ..Relation::default() }
    }

    /// Starts over with other columns and no rows.
    pub fn reset(&mut self, columns: Columns) {
        self.columns = columns;
        self.rows.clear();
    }
}

/// A row fits when it has as many values as columns, of those kinds.
pub fn fits(columns: &Columns, row: &Row) -> bool {
    row.len() == columns.len()
        && row.iter().zip(columns.iter()).all(|(value, kind)| value.kind() == *kind)
}
