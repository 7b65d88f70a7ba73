//! Rows that a template leaves at one field after another.

use super::{example, Example};
use crate::record::*;

pub fn all() -> Vec<Example> {
    vec![left_early()]
}

fn on_card(kind: u8, next: u8) -> Record {
    node(kind, next).name(b"CARD").at(loc(1))
}

/// The update leaves a row at each of its four fields and matches the last one. After it the first
/// thread stands at a template of two fields, which a table of four columns refuses; the second
/// thread has nothing bound.
fn left_early() -> Example {
    let card =
        |rig, channel, level, at| row(1, b"CARD", &[text(rig), int(channel), int(level), loc(at)]);
    let rows = [
        card(b"RIG2", 2, 36, 1),
        card(b"RIG1", 1, 36, 1),
        card(b"RIG1", 2, 40, 1),
        card(b"RIG1", 2, 36, 2),
        card(b"rig1", 2, 36, 1),
        row(0, b"RIGS", &[text(b"RIG1")]),
    ];
    let own = |level| [text(b"RIG1"), int(2), level, loc(1)];
    let formals = [formal(4), formal(5), formal(6), formal(7)];
    let nodes = [
        on_card(AGGREGATE, 1).function(LEAST, 2).template(&formals).tuple(&[formal(1)]),
        on_card(UPDATE, 2).template(&own(var(1))).tuple(&own(plus(1, 1))),
        on_card(DELETE, 3).bound(0).template(&[formal(2), formal(3)]),
        on_card(DELETE, END).bound(0).template(&own(plus(1, 1))),
    ];
    let world =
        [alias(0, 1, 1), table(1, b"CARD", &[TEXT, INT, INT, LOC]), table(0, b"RIGS", &[TEXT])];
    let rest = [vec![start(0, 0); 2], vec![pick(0, 0); 3]].concat();
    let records = [&world[..], &rows, &nodes, &rest].concat();
    let lines = [
        "pick 0 done 0 0",
        "pick 1 done 1 1",
        "pick 2 no 16",
        "table 1 CARD 5",
        "row RIG2 2 36 @1",
        "row RIG1 1 36 @1",
        "row RIG1 2 40 @1",
        "row RIG1 2 36 @2",
        "row RIG1 2 37 @1",
        "table 0 RIGS 1",
        "row RIG1",
    ];
    example("left-early", &records, &lines)
}
