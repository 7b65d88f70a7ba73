//! Parts of nets.

use generate::record::{self, *};

const COLUMNS: [u8; 4] = [INT, TEXT, INT, LOC];

/// All 56 that there can be, from site 7 down. The last is the one that steps need: at site 0
/// locality 7 means site 0.
pub fn aliases() -> Vec<Record> {
    let alias_at = |place: u8| {
        let (site, locality) = (7 - place / 7, place % 7 + 1);
        alias(site, locality, (site + locality + 1) % 8)
    };
    (0..56).map(alias_at).collect()
}

/// So many tables and then their rows; `rows` says how many each one has.
pub fn tables(count: u8, rows: impl Fn(u8) -> u8) -> Vec<Record> {
    tables_of(count, rows, values)
}

/// The same with other values.
pub fn tables_of(
    count: u8,
    rows: impl Fn(u8) -> u8,
    values: fn(u8) -> [Operand; 4],
) -> Vec<Record> {
    let heads = (0..count).map(|place| table(0, &name(place), &COLUMNS));
    let row_of = |place: u8| move |row: u8| record::row(0, &name(place), &values(row));
    let bodies = (0..count).flat_map(|place| (0..rows(place)).map(row_of(place)));
    heads.chain(bodies).collect()
}

pub fn starts(count: u8) -> Vec<Record> {
    vec![start(0, 0); usize::from(count)]
}

fn name(table: u8) -> Name {
    [b'T', b'A', b'B', b'0' + table]
}

/// Rows differ in each column but the last; the third is twice the row's place.
fn values(row: u8) -> [Operand; 4] {
    let number = i32::from(row);
    [int(number), text(&[b'R', b'I', b'G', b'a' + row]), int(2 * number), loc(row % 8)]
}

/// A template that every row matches, and what its variables give then.
pub fn formals() -> [Operand; 4] {
    [formal(0), formal(1), formal(2), formal(3)]
}

pub fn variables() -> [Operand; 4] {
    [var(0), var(1), var(2), var(3)]
}

/// The node, at a table.
pub fn on(table: u8, node: Record) -> Record {
    node.name(&name(table)).at(loc(7))
}

/// The node, at the table that steps create and drop.
pub fn on_new(node: Record) -> Record {
    node.name(b"NEWT").at(loc(7))
}

/// All rows of a table into a table variable.
pub fn select(table: u8, bound: u8, next: u8) -> Record {
    on(table, node(SELECT, next)).bound(bound).template(&formals()).tuple(&variables())
}

/// All rows of a table variable into table variable 1.
pub fn select_variable(read: u8, next: u8) -> Record {
    let node = node(SELECT_VARIABLE, next).read(read).bound(1);
    node.template(&formals()).tuple(&variables())
}

/// Folds the first column of all rows.
pub fn aggregate(table: u8, function: u8, next: u8) -> Record {
    let node = on(table, node(AGGREGATE, next)).function(function, 0);
    node.template(&formals()).tuple(&[formal(5)])
}

/// Adds to the first column of all rows.
pub fn update(table: u8, more: i32, next: u8) -> Record {
    let tuple = [plus(0, more), var(1), var(2), var(3)];
    let node = on(table, node(UPDATE, next)).template(&formals()).tuple(&tuple);
    node.predicate(LESS, var(0), int(1_000_000))
}

pub fn create(next: u8) -> Record {
    on_new(node(CREATE, next)).columns(&COLUMNS)
}

pub fn drop_new(next: u8) -> Record {
    on_new(node(DROP, next))
}

/// A sequential loop over table variable 0.
pub fn looping(body: u8, next: u8) -> Record {
    node(SEQUENTIAL, next).body(body).template(&formals())
}
