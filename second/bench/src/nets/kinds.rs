//! A net for each kind of step.

use super::parts::*;
use super::Files;
use generate::record::*;

/// What a chain of picks is made of.
#[derive(Clone, Copy, PartialEq, Eq, Debug)]
pub struct Kind {
    pub number: u8,
    pub name: &'static str,
}

pub const KINDS: [Kind; 10] = [
    Kind { number: INSERT, name: "16 insert" },
    Kind { number: INSERT_TABLE, name: "17 insert-table" },
    Kind { number: DELETE, name: "18 delete" },
    Kind { number: SELECT, name: "19 select" },
    Kind { number: SELECT_VARIABLE, name: "20 select from a variable" },
    Kind { number: UPDATE, name: "21 update" },
    Kind { number: AGGREGATE, name: "22 aggregate" },
    Kind { number: CREATE, name: "23, 24 create and drop" },
    Kind { number: SEQUENTIAL, name: "25 sequential loop" },
    Kind { number: PARALLEL, name: "26 parallel loop" },
];

const NODES: u8 = 128;

pub fn files(kind: Kind) -> Files {
    let count = if kind.number == CREATE { 7 } else { 8 };
    let threads = if kind.number == PARALLEL { 7 } else { 8 };
    let nodes: Vec<Record> = (0..NODES).map(|number| node_of(kind.number, number)).collect();
    let tables = tables(count, |table| rows_at(kind.number, table));
    Files::new(&[aliases(), tables].concat(), &[nodes, starts(threads)].concat())
}

/// None where the chain inserts, but one to insert from.
fn rows_at(kind: u8, table: u8) -> u8 {
    match (kind, table) {
        (INSERT, _) => 0,
        (INSERT_TABLE, table) => u8::from(table == 0),
        _ => 16,
    }
}

/// Node 0 binds table variable 0; node i of the others is on table i / 16.
fn node_of(kind: u8, i: u8) -> Record {
    let next = if i + 1 == NODES { END } else { i + 1 };
    let table = i / 16;
    let plain = node(kind, next);
    if i == 0 {
        return select(table, 0, next);
    }
    match kind {
        INSERT => on(table, plain).tuple(&[int(i32::from(i)), text(b"RIGa"), int(7), loc(3)]),
        INSERT_TABLE => on(table, plain),
        DELETE => {
            let template = [int(i32::from(i % 16)), formal(1), formal(2), formal(3)];
            on(table, plain).bound(1).template(&template)
        }
        SELECT => select(table, 1, next),
        SELECT_VARIABLE => select_variable(0, next),
        UPDATE => update(table, 1, next),
        AGGREGATE => aggregate(table, SUM, next),
        CREATE if i % 2 == 1 => create(next),
        CREATE => drop_new(next),
        _ if i % 2 == 1 && i + 1 < NODES => node(kind, i + 2).body(i + 1).template(&formals()),
        _ => aggregate(table, COUNT, END),
    }
}
