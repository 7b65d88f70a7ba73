//! Loops, each in the one before it, around every kind of step in equal numbers.

use super::parts::*;
use super::Files;
use generate::record::*;

/// With the loop of a group and its body they fill a stack of eight entries.
const LOOPS: u8 = 6;
/// Each works on a table of its own.
const GROUPS: u8 = 6;
const IN_GROUP: u8 = 20;

/// At the limits but for one table and one thread, for which creates and forks need room.
pub fn files() -> Files {
    let tables = tables(7, |_| 16);
    Files::new(&[aliases(), tables].concat(), &[nodes(), starts(7)].concat())
}

/// Node 0 binds table variable 0, over which the loops go; after the groups one node is left over.
fn nodes() -> Vec<Record> {
    let loops = (1..=LOOPS).map(|number| looping(number + 1, END)).collect();
    let mut groups: Vec<Record> =
        (0..GROUPS).flat_map(|place| group(LOOPS + 1 + place * IN_GROUP, place + 1)).collect();
    if let Some(last) = groups.last_mut() {
        *last = last.next(END);
    }
    [vec![select(0, 0, 1)], loops, groups, vec![update(0, 1, END)]].concat()
}

/// Each kind for two picks. A group leaves all tables as they were: what is created is dropped,
/// what a delete takes, the last rows or all, an insert-table puts back at the end, and of two
/// updates one takes off what the other one adds. `first` is the number of the first node.
fn group(first: u8, table: u8) -> Vec<Record> {
    let to = |place: u8| first + place;
    let half = |next: u8| take_all(table, next).predicate(LESS, int(15), var(2));
    let round = |kind: u8, body: u8, next: u8| {
        let template = [formal(0), formal(1), int(30), formal(3)];
        node(kind, next).body(body).read(1).template(&template)
    };
    vec![
        create(to(1)),
        on_new(node(INSERT, to(2))).tuple(&variables()),
        update(table, 1, to(3)),
        select(table, 1, to(4)),
        select_variable(1, to(5)),
        aggregate(table, SUM, to(6)),
        half(to(7)),
        put_back(table, to(8)),
        drop_new(to(9)),
        create(to(10)),
        take_all(table, to(11)),
        put_back(table, to(12)),
        // One row of 16 matches, so a loop has one round and then goes on: two picks.
        round(SEQUENTIAL, to(13), to(14)),
        update(table, -1, END),
        round(PARALLEL, to(15), to(17)),
        // The fork, which ends.
        select(table, 1, to(16)),
        aggregate(table, LARGEST, END),
        on_new(node(INSERT, to(18))).tuple(&[int(7), text(b"RIGa"), int(7), loc(3)]),
        select_variable(0, to(19)),
        drop_new(to(20)),
    ]
}

fn take_all(table: u8, next: u8) -> Record {
    on(table, node(DELETE, next)).bound(1).template(&formals())
}

fn put_back(table: u8, next: u8) -> Record {
    on(table, node(INSERT_TABLE, next)).read(1)
}
