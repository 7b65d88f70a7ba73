//! Variables and table variables, as a moment's records tell them of a thread or of an entry.

use crate::moment::Record;
use crate::value::{Kind, Relation, Value};
use crate::Variable;

// The kinds of their records.
pub(crate) const VARIABLE: u8 = 66;
pub(crate) const TABLE_VARIABLE: u8 = 67;
pub(crate) const TABLE_VARIABLE_ROW: u8 = 68;

/// What was bound at some moment; a table variable that was unbound is none.
#[derive(Clone, PartialEq, Eq, Debug, Default)]
pub struct Bindings {
    pub variables: [Variable; 16],
    pub table_variables: [Option<Relation>; 2],
}

/// Takes in a record of a variable, of a table variable or of a row of one. Numbers that are
/// unknown here are skipped.
pub(crate) fn bind(
    variables: &mut [Variable; 16],
    table_variables: &mut [Option<Relation>; 2],
    record: &Record,
) {
    let number = usize::from(record[1]);
    let table = table_variables.get_mut(number);
    match (record[0], table) {
        (VARIABLE, _) => {
            if let Some(variable) = variables.get_mut(number) {
                *variable = Variable::read(&values(record)[0]);
            }
        }
        (TABLE_VARIABLE, Some(table)) => {
            *table = (record[2] == 1).then(|| Relation::new(columns(record)));
        }
        (TABLE_VARIABLE_ROW, Some(Some(relation))) => {
            relation.rows.push(Value::read_row(values(record)));
        }
        _ => {}
    }
}

/// Where a record has its values, four operands.
pub(crate) fn values(record: &Record) -> &[[u8; 8]] {
    record[56..88].as_chunks().0
}

/// Where a record has its columns.
pub(crate) fn columns(record: &Record) -> Vec<Kind> {
    Kind::read_columns(&record[8..12])
}
