//! A table laid out as a page for the wall: a line for each row, and a last one with the sums.

use crate::net::Net;
use crate::number;
use crate::quirk::{wrong, Quirk};
use crate::relation::{Relation, Row};
use crate::sound::sound;
use crate::value::{Kind, Site, Text, Value};
use std::io::Write;

/// The bytes of a cell: one more than the longest sum has places, so that numbers never touch.
const CELL: usize = 13;

/// The bytes of a line: four cells and a line feed.
const LINE: usize = 4 * CELL + 1;

/// The length of the longest page, that of a table with 16 rows.
pub const LONGEST: usize = 17 * LINE;

type Cell = [u8; CELL];

/// Puts the page of a table at the start of the buffer and returns its length. A refusal leaves
/// every byte.
pub fn page(net: &Net, site: Site, name: Text, buffer: &mut [u8]) -> Result<usize, u8> {
    if !sound(net) {
        return Err(number::UNSOUND);
    }
    let table = net.tables.iter().find(|table| table.site == site && table.name == name);
    let relation = &table.ok_or(number::NO_TABLE)?.relation;
    let length = LINE * lines(relation);
    let lent = buffer.get_mut(..length).ok_or(number::SHORT_FOR_PAGE)?;
    lent.fill(b' ');
    for (place, line) in lent.as_chunks_mut::<LINE>().0.iter_mut().enumerate() {
        let (cells, end) = line.as_chunks_mut::<CELL>();
        end.fill(b'\n');
        match relation.rows.get(place) {
            Some(row) => put_row(row, cells),
            None => put_sums(relation, cells),
        }
    }
    Ok(length)
}

fn lines(relation: &Relation) -> usize {
    match relation.rows.len() {
        0 if wrong(Quirk::PageNoLastLine) => 0,
        rows => rows + 1,
    }
}

fn put_row(row: &Row, cells: &mut [Cell]) {
    for (value, cell) in row.iter().zip(cells) {
        match value {
            Value::Int(int) => put_number(i64::from(*int), cell),
            Value::Text(text) => cell[..4].copy_from_slice(&text.0),
            Value::Loc(locality) => cell[..2].copy_from_slice(&[b'@', b'0' + locality.0]),
        }
    }
}

/// The columns' kinds say where a sum stands, so that it stands there without rows too.
fn put_sums(relation: &Relation, cells: &mut [Cell]) {
    for (column, (kind, cell)) in relation.columns.iter().zip(cells).enumerate() {
        if *kind == Kind::Int {
            put_sum(sum(relation, column), cell);
        }
    }
}

/// The whole sum of an Int column, which may leave 32 bits.
fn sum(relation: &Relation, column: usize) -> i64 {
    let ints = relation.rows.iter().filter_map(|row| match row[column] {
        Value::Int(int) => Some(i64::from(int)),
        _ => None,
    });
    let sum: i64 = ints.sum();
    if wrong(Quirk::PageSumWraps) {
        return i64::from(sum as i32);
    }
    sum
}

fn put_sum(sum: i64, cell: &mut Cell) {
    if wrong(Quirk::PageSumLeft) {
        return write!(&mut cell[..], "{sum:<CELL$}").expect("a cell has room for any sum");
    }
    put_number(sum, cell);
}

/// A number right-aligned, its sign directly before the digits.
fn put_number(number: i64, cell: &mut Cell) {
    let apart = wrong(Quirk::PageSignApart) && number < 0;
    let number = if apart { -number } else { number };
    write!(&mut cell[..], "{number:>CELL$}").expect("a cell has room for any sum");
    if apart {
        cell[0] = b'-';
    }
}
