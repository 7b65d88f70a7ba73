//! Aggregate functions over the rows that a selection takes.

use crate::net::Function;
use crate::number;
use crate::quirk::{wrong, Quirk};
use crate::relation::Relation;
use crate::term::Selection;
use crate::value::{Kind, Value};

/// The result as a value. It is judged whole: partial sums may leave 32 bits.
pub fn fold(function: Function, relation: &Relation, selection: &Selection) -> Result<Value, u8> {
    let result = match function {
        Function::Count => {
            Some(relation.rows.iter().filter(|row| selection.takes(row)).count() as i64)
        }
        Function::Sum(column) if wrong(Quirk::PartialSum) => ints(column, relation, selection)?
            .try_fold(0i32, |sum, int| sum.checked_add(int as i32))
            .map(i64::from),
        Function::Sum(column) => Some(ints(column, relation, selection)?.sum()),
        Function::Least(column) => ints(column, relation, selection)?.min(),
        Function::Largest(column) => ints(column, relation, selection)?.max(),
    };
    let result = result.and_then(|result| i32::try_from(result).ok());
    result.map(Value::Int).ok_or(number::NO_RESULT)
}

/// The Ints of a column in the rows taken.
fn ints<'a>(
    column: u8,
    relation: &'a Relation,
    selection: &'a Selection,
) -> Result<impl Iterator<Item = i64> + 'a, u8> {
    let column = usize::from(column);
    if relation.columns.get(column) != Some(&Kind::Int) {
        return Err(number::MISFIT);
    }
    let taken = relation.rows.iter().filter(|row| selection.takes(row));
    Ok(taken.filter_map(move |row| match row[column] {
        Value::Int(int) => Some(i64::from(int)),
        _ => None,
    }))
}
