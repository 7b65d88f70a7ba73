//! Writing the tables and rows of a net as records.

use crate::net::{Net, Table};
use crate::number;
use crate::record::{COLUMNS, KIND, NAME, ROW, SITE, SIZE, TABLE, TUPLE};
use crate::relation::Row;
use crate::sound::sound;
use crate::value::Value;

/// Puts all tables, then their rows, at the start of the buffer and returns the length written.
/// A refusal leaves every byte.
pub fn write(net: &Net, buffer: &mut [u8]) -> Result<usize, u8> {
    if !sound(net) {
        return Err(number::UNSOUND);
    }
    let rows: usize = net.tables.iter().map(|table| table.relation.rows.len()).sum();
    let length = SIZE * (net.tables.len() + rows);
    let lent = buffer.get_mut(..length).ok_or(number::SHORT_BUFFER)?;
    lent.fill(0);
    let (heads, bodies) = lent.as_chunks_mut::<SIZE>().0.split_at_mut(net.tables.len());
    let mut bodies = bodies.iter_mut();
    for (table, head) in net.tables.iter().zip(heads) {
        put_head(table, TABLE, head);
        for (place, kind) in table.relation.columns.iter().enumerate() {
            head[COLUMNS + place] = *kind as u8;
        }
        for (row, record) in table.relation.rows.iter().zip(&mut bodies) {
            put_head(table, ROW, record);
            record[TUPLE..TUPLE + 32].copy_from_slice(&encode_row(row));
        }
    }
    Ok(length)
}

fn put_head(table: &Table, kind: u8, record: &mut [u8; SIZE]) {
    record[KIND] = kind;
    record[SITE] = table.site.0;
    record[NAME..NAME + 4].copy_from_slice(&table.name.0);
}

/// A row as the four operands of its record.
pub fn encode_row(row: &Row) -> [u8; 32] {
    let mut bytes = [0; 32];
    for (value, operand) in row.iter().zip(bytes.chunks_exact_mut(8)) {
        operand[0] = value.kind() as u8;
        operand[4..].copy_from_slice(&match value {
            Value::Int(int) => int.to_le_bytes(),
            Value::Text(text) => text.0,
            Value::Loc(locality) => [locality.0, 0, 0, 0],
        });
    }
    bytes
}
