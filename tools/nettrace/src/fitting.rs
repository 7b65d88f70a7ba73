//! Why a tuple fits no row of a table.

use crate::reading::Bindings;
use crate::words::{a_kind, counted};
use engine::{Columns, Kind, Operand, Row, Value};
use nettext::{columns as shown_columns, operand as shown, value as shown_value};

/// The row that a tuple gives for these columns, or what is in the way.
pub fn fitted(tuple: &[Operand], bindings: Bindings, columns: &Columns) -> Result<Row, String> {
    if tuple.len() != columns.len() {
        let values = counted(tuple.len(), "value");
        return Err(format!("the tuple has {values} for the columns {}", shown_columns(columns)));
    }
    let fields = tuple.iter().zip(columns.iter()).enumerate();
    fields.map(|(place, (field, kind))| value(place, *field, bindings, *kind)).collect()
}

fn value(place: usize, field: Operand, bindings: Bindings, kind: Kind) -> Result<Value, String> {
    let value = bindings.value(field).ok_or_else(|| bindings.lack(field))?;
    if value.kind() == kind {
        return Ok(value);
    }
    let given = match field {
        Operand::Constant(_) => shown_value(value),
        _ => format!("{}, which is {}", shown(field), shown_value(value)),
    };
    Err(format!("column {place} is {}, and there the tuple has {given}", a_kind(kind)))
}
