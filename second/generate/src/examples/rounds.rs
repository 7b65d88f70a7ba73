//! What a round of a sequential loop binds ends with the round.

use super::loops::{insert_nums, over_card, scheduled, with_nums, DONE, INSERTED, WORLD_LINES};
use super::steps::{case, select_card};
use super::Example;
use crate::record::*;

pub fn all() -> Vec<Example> {
    vec![
        template_bound_anew(),
        bound_before_and_after(),
        last_binding_lost(),
        table_variable_back(),
        sequential_last_in_body(),
        parallel_last_in_body(),
    ]
}

/// The least or largest Int of CARD.
fn bind(next: u8, function: u8, variable: u8) -> Record {
    let node = node(AGGREGATE, next).name(b"CARD").at(loc(1)).function(function, 1);
    node.template(&[formal(4), formal(5)]).tuple(&[formal(variable)])
}

/// T of a loop means the same in every round: that the body binds its variable anew is no matter,
/// and the row of 40 is not looked for.
fn template_bound_anew() -> Example {
    let nodes = [
        select_card(1),
        bind(2, LEAST, 1),
        node(SEQUENTIAL, END).body(3).template(&[formal(0), var(1)]),
        bind(END, LARGEST, 1),
    ];
    let picks = [(0, DONE), (0, DONE), (1, "no 19"), (0, DONE), (0, DONE), (1, DONE), (1, "no 11")];
    case("25-template-bound-anew", &nodes, &picks, &WORLD_LINES)
}

/// In the body a next keeps what was bound; after the loop the variable has its old value.
fn bound_before_and_after() -> Example {
    let nodes = [
        select_card(1),
        bind(2, LEAST, 2),
        over_card(SEQUENTIAL, 5, 3),
        bind(4, LARGEST, 2),
        insert_nums(END, var(2)),
        insert_nums(END, var(2)),
    ];
    let round = |row| [(row, DONE), (0, DONE), (0, INSERTED)];
    let picks =
        [&[(0, DONE), (0, DONE)], &round(1)[..], &round(0), &[(0, DONE), (0, INSERTED)]].concat();
    let lines = with_nums(&["table 0 NUMS 3", "row 40", "row 40", "row 36"]);
    case("25-bound-before-and-after", &nodes, &picks, &lines)
}

/// What the last step of a body binds is lost at once, and was not bound before.
fn last_binding_lost() -> Example {
    let nodes = [
        select_card(1),
        over_card(SEQUENTIAL, 3, 2),
        bind(END, LARGEST, 2),
        insert_nums(END, var(2)),
    ];
    let picks = [
        (0, DONE),
        (0, DONE),
        (0, DONE),
        (1, DONE),
        (0, DONE),
        (0, DONE),
        (0, "no 12"),
        (0, "no 12"),
    ];
    case("25-last-binding-lost", &nodes, &picks, &WORLD_LINES)
}

/// The body binds the other table variable to two rows; after the loop it has its one row again.
fn table_variable_back() -> Example {
    let nodes = [
        select_card(1),
        select_card(2).bound(1).predicate(LESS, var(1), int(40)),
        over_card(SEQUENTIAL, 4, 3),
        select_card(END).bound(1),
        node(INSERT_TABLE, END).name(b"CARD").at(loc(1)).read(1),
    ];
    let picks = [
        (0, DONE),
        (0, DONE),
        (0, DONE),
        (0, DONE),
        (1, DONE),
        (0, DONE),
        (0, DONE),
        (0, INSERTED),
        (0, "no 11"),
    ];
    let lines = ["table 1 CARD 3", "row RIG1 36", "row rig2 40", "row RIG1 36", "table 0 NUMS 0"];
    case("25-table-variable-back", &nodes, &picks, &lines)
}

/// A loop whose body binds a variable and ends with a loop of this kind, which has one round.
fn loop_last_in_body(kind: u8) -> [Record; 6] {
    [
        select_card(1),
        over_card(SEQUENTIAL, 5, 2),
        bind(3, LEAST, 2),
        node(kind, END).body(4).template(&[text(b"RIG1"), formal(7)]),
        insert_nums(END, var(2)),
        insert_nums(END, var(2)),
    ]
}

/// The round ends in the step in which the loop in it is over.
fn sequential_last_in_body() -> Example {
    let round = |row| [(row, DONE), (0, DONE), (0, DONE), (0, INSERTED), (9, DONE)];
    let picks = [&[(0, DONE)], &round(0)[..], &round(1), &[(0, DONE), (0, "no 12")]].concat();
    let lines = with_nums(&["table 0 NUMS 2", "row 36", "row 36"]);
    case("25-loop-last-in-body", &loop_last_in_body(SEQUENTIAL), &picks, &lines)
}

/// A fork keeps what its round had bound, also when that round is over.
fn parallel_last_in_body() -> Example {
    let picks = [
        (0, 0, DONE),
        (0, 0, DONE),
        (0, 0, DONE),
        (0, 0, DONE),
        (0, 9, DONE),
        (0, 1, DONE),
        (1, 0, INSERTED),
        (0, 0, DONE),
        (0, 0, DONE),
        (0, 9, DONE),
        (0, 0, DONE),
        (0, 0, "no 12"),
        (1, 0, INSERTED),
        (1, 0, "no 11"),
    ];
    let lines = with_nums(&["table 0 NUMS 2", "row 36", "row 36"]);
    scheduled("25-forks-last-in-body", &loop_last_in_body(PARALLEL), &picks, &lines)
}
