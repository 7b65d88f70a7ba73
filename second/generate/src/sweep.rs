//! Each byte of each kind of record broken by itself.

use crate::record::*;

/// The differences from the byte's own value, the telling ones first; then all others follow.
const FIRST: [u8; 10] = [1, 255, 128, 2, 8, 4, 16, 32, 64, 7];

/// A file of records of each kind, with all fields used and with as few as can be.
pub(crate) fn base() -> Vec<Record> {
    let still = [
        alias(1, 1, 1),
        alias(7, 7, 0),
        table(1, b"CARD", &[INT]),
        table(2, b"CARD", &[INT, TEXT, LOC, INT]),
        row(1, b"CARD", &[int(-2)]),
        row(2, b"CARD", &[int(5), text(b"a Z~"), loc(7), int(i32::MIN)]),
    ];
    let moving = [start(1, 0), start(7, 17), pick(0, 0), pick(1, 255)];
    [&still[..], &full_nodes(), &bare_nodes(), &moving].concat()
}

/// Nodes that use all their fields.
fn full_nodes() -> Vec<Record> {
    let wide = [text(b"Rig1"), formal(0), plus(1, -2), var(2)];
    let stored = [loc(3), int(-1), var(0), text(b"~  a")];
    let tuple = [int(1), text(b"aaaa"), plus(3, 1), var(3)];
    let here = |kind, next| node(kind, next).name(b"CARD").at(loc(7));
    let there = |kind, next| node(kind, next).name(b"card").at(var(15));
    let filter = |record: Record| record.template(&wide).predicate(LESS, var(0), plus(1, 7));
    vec![
        here(INSERT, 1).tuple(&tuple),
        there(INSERT_TABLE, 3).read(1),
        filter(here(DELETE, 3)).bound(1),
        filter(there(SELECT, 4)).bound(1).tuple(&stored),
        filter(node(SELECT_VARIABLE, 5)).bound(1).read(1).tuple(&stored),
        filter(here(UPDATE, 6)).tuple(&tuple),
        filter(there(AGGREGATE, 7)).function(LARGEST, 3).tuple(&[formal(9)]),
        filter(here(AGGREGATE, 8)).function(SUM, 1).tuple(&[plus(9, 0)]),
        there(CREATE, 9).columns(&[LOC, TEXT, INT, INT]),
        here(DROP, 11),
        node(SEQUENTIAL, 11).body(12).read(1).template(&wide),
        node(PARALLEL, 12).body(14).read(1).template(&wide),
    ]
}

/// Nodes that use as few fields as they can.
fn bare_nodes() -> Vec<Record> {
    let bare = |kind| node(kind, END).name(b"    ").at(loc(0));
    let one = |kind| bare(kind).template(&[formal(1)]);
    vec![
        bare(INSERT).tuple(&[loc(0)]),
        bare(INSERT_TABLE),
        bare(DELETE).template(&[formal(15)]),
        bare(SELECT).template(&[int(1)]).tuple(&[int(1)]),
        node(SELECT_VARIABLE, END).template(&[formal(1)]).tuple(&[var(1)]),
        one(UPDATE).tuple(&[plus(1, 1)]),
        one(AGGREGATE).function(COUNT, 0).tuple(&[int(2)]),
        one(AGGREGATE).function(LEAST, 1).tuple(&[var(2)]),
        bare(CREATE).columns(&[INT]),
        bare(DROP),
        node(SEQUENTIAL, END).body(24).template(&[formal(0)]),
        node(PARALLEL, END).body(24).template(&[loc(1)]),
        bare(DROP),
    ]
}

/// The number of files that break each byte once; more go on with other values, up to 255 times.
pub fn round() -> usize {
    base().len() * SIZE
}

/// The file of an index: one byte of one record differs from the base.
pub fn swept(index: u64) -> Vec<u8> {
    let mut records = base();
    let round = round() as u64;
    let (spot, turn) = ((index % round) as usize, (index / round % 255) as u8);
    let (place, at) = (spot / SIZE, spot % SIZE);
    let old = records[place].0[at];
    records[place] = records[place].byte(at, old.wrapping_add(difference(turn)));
    file(&records)
}

/// The difference of a turn 0..254: each of 1..255 once.
fn difference(turn: u8) -> u8 {
    let others = (1..=255).filter(|difference| !FIRST.contains(difference));
    FIRST.iter().copied().chain(others).nth(usize::from(turn)).unwrap_or(1)
}
