//! Loops of both kinds: rounds, forks, held table variables, and the refusals 12, 16, 17, 19, 20.

use super::steps::{case, refused, select_card, world};
use super::{example, joined, run, Example};
use crate::record::*;

pub const WORLD_LINES: [&str; 4] =
    ["table 1 CARD 2", "row RIG1 36", "row rig2 40", "table 0 NUMS 0"];
pub const DONE: &str = "done 0 0";
pub const INSERTED: &str = "done 1 0";

pub fn all() -> Vec<Example> {
    [vec![sequential(), parallel(), locs(), nested_forks()], held(), over(), refusals(), full()]
        .into_iter()
        .flatten()
        .collect()
}

/// A loop over the two rows of CARD in table variable 0.
pub fn over_card(kind: u8, next: u8, body: u8) -> Record {
    node(kind, next).body(body).template(&[formal(0), formal(1)])
}

pub fn insert_nums(next: u8, value: Operand) -> Record {
    node(INSERT, next).name(b"NUMS").at(loc(0)).tuple(&[value])
}

pub fn with_nums(lines: &[&'static str]) -> Vec<&'static str> {
    [&WORLD_LINES[..3], lines].concat()
}

/// What a round binds ends with it, so that nothing is bound after the loop.
fn sequential() -> Example {
    let nodes = [
        select_card(1),
        over_card(SEQUENTIAL, 3, 2),
        insert_nums(END, var(1)),
        insert_nums(END, plus(1, 1)),
    ];
    let picks = [
        (0, DONE),
        (1, DONE),
        (0, INSERTED),
        (1, "no 19"),
        (0, DONE),
        (0, INSERTED),
        (77, DONE),
        (0, "no 12"),
        (0, "no 12"),
    ];
    let lines = with_nums(&["table 0 NUMS 2", "row 40", "row 36"]);
    case("25-sequential", &nodes, &picks, &lines)
}

/// The world with these nodes, a thread at site 0 and picks of any threads.
pub fn scheduled(
    name: &'static str,
    nodes: &[Record],
    picks: &[(u8, u8, &str)],
    tables: &[&str],
) -> Example {
    let chosen: Vec<Record> = picks.iter().map(|(thread, row, _)| pick(*thread, *row)).collect();
    let answers: Vec<String> =
        picks.iter().enumerate().map(|(i, (_, _, answer))| format!("pick {i} {answer}")).collect();
    let lines: Vec<&str> =
        answers.iter().map(String::as_str).chain(tables.iter().copied()).collect();
    example(name, &joined(&[&world(), &run(nodes, &[]), &chosen]), &lines)
}

fn parallel() -> Example {
    let nodes = [
        select_card(1),
        over_card(PARALLEL, 3, 2),
        insert_nums(END, var(1)),
        insert_nums(END, int(-5)),
    ];
    let picks = [
        (0, 0, DONE),
        (0, 1, DONE),
        (0, 1, "no 19"),
        (0, 0, DONE),
        (0, 7, DONE),
        (0, 0, INSERTED),
        (1, 0, INSERTED),
        (0, 0, INSERTED),
        (0, 0, "no 11"),
    ];
    let lines = with_nums(&["table 0 NUMS 3", "row -5", "row 36", "row 40"]);
    scheduled("26-parallel", &nodes, &picks, &lines)
}

/// Forks that fork: the inner loop runs over the copied table variable.
fn nested_forks() -> Example {
    let nodes = [
        select_card(1),
        over_card(PARALLEL, END, 2),
        node(PARALLEL, END).body(3).template(&[formal(2), formal(3)]),
        insert_nums(END, var(3)),
    ];
    let picks = [
        (0, 0, DONE),
        (0, 0, DONE),
        (1, 1, DONE),
        (2, 0, INSERTED),
        (1, 0, DONE),
        (1, 0, DONE),
        (1, 0, INSERTED),
        (1, 0, "no 11"),
        (0, 1, DONE),
        (0, 1, DONE),
        (0, 0, DONE),
    ];
    let lines = with_nums(&["table 0 NUMS 2", "row 40", "row 36"]);
    scheduled("26-nested-forks", &nodes, &picks, &lines)
}

/// A Loc from a row serves as L, read at the thread's own site.
fn locs() -> Example {
    let hops = joined(&[
        &world()[..3],
        &[table(0, b"HOPS", &[LOC])],
        &world()[3..],
        &[row(0, b"HOPS", &[loc(1)]), row(0, b"HOPS", &[loc(2)])],
    ]);
    let nodes = [
        node(SELECT, 1).name(b"HOPS").at(loc(0)).template(&[formal(0)]).tuple(&[var(0)]),
        node(SEQUENTIAL, END).body(2).template(&[formal(0)]),
        node(DROP, END).name(b"CARD").at(var(0)),
    ];
    let lines = [
        "pick 0 done 0 0",
        "pick 1 done 0 0",
        "pick 2 done 0 2",
        "pick 3 done 0 0",
        "pick 4 no 13",
        "table 0 NUMS 0",
        "table 0 HOPS 2",
        "row @1",
        "row @2",
    ];
    example("25-loc-from-a-row", &joined(&[&hops, &run(&nodes, &[0, 0, 0, 1, 0])]), &lines)
}

fn held() -> Vec<Example> {
    let one_row = select_card(1).predicate(LESS, var(1), int(40));
    let unfit = node(SELECT, END).name(b"NUMS").at(loc(0)).tuple(&[int(1)]);
    vec![
        refused(
            "17-held",
            &[select_card(1), over_card(SEQUENTIAL, END, 2), select_card(END)],
            2,
            17,
        ),
        refused(
            "17-held-with-no-row-left",
            &[one_row, over_card(SEQUENTIAL, END, 2), select_card(END)],
            2,
            17,
        ),
        refused(
            "16-before-17",
            &[
                select_card(1),
                over_card(SEQUENTIAL, END, 2),
                unfit.template(&[formal(0), formal(1)]),
            ],
            2,
            16,
        ),
        case(
            "17-other-variable-is-free",
            &[select_card(1), over_card(SEQUENTIAL, END, 2), select_card(END).bound(1)],
            &[(0, DONE), (0, DONE), (0, DONE)],
            &WORLD_LINES,
        ),
        scheduled(
            "17-nothing-held-in-a-fork",
            &[select_card(1), over_card(PARALLEL, END, 2), select_card(END)],
            &[(0, 0, DONE), (0, 0, DONE), (1, 0, DONE), (1, 0, "no 11")],
            &WORLD_LINES,
        ),
    ]
}

/// Loops that are over when first met.
fn over() -> Vec<Example> {
    let none = select_card(1).predicate(EQUAL, int(1), int(2));
    let unmatched = node(PARALLEL, 2).body(2).template(&[text(b"RIG3"), formal(1)]);
    let lines = with_nums(&["table 0 NUMS 1", "row 6"]);
    let picks = [(0, DONE), (200, DONE), (0, INSERTED)];
    vec![
        case(
            "25-no-rows",
            &[none, over_card(SEQUENTIAL, 2, 2), insert_nums(END, int(6))],
            &picks,
            &lines,
        ),
        case("26-no-match", &[select_card(1), unmatched, insert_nums(END, int(6))], &picks, &lines),
    ]
}

fn refusals() -> Vec<Example> {
    let drop = node(DROP, END).name(b"CARD").at(loc(1));
    let loops = |template: &[Operand]| {
        [select_card(1), node(SEQUENTIAL, END).body(2).template(template), drop]
    };
    vec![
        refused("12-loop-table-variable", &[over_card(SEQUENTIAL, END, 1), drop], 0, 12),
        refused("12-loop-template", &loops(&[formal(0), var(0)]), 1, 12),
        refused("16-loop-template", &loops(&[formal(0)]), 1, 16),
        refused("19-loop", &loops(&[text(b"RIG2"), formal(1)]), 1, 19),
    ]
}

fn full() -> Vec<Example> {
    let mut nodes = vec![select_card(1)];
    nodes.extend((1..=8).map(|number| over_card(SEQUENTIAL, END, number + 1)));
    nodes.push(insert_nums(END, int(1)));
    let stack = [&[(0, DONE); 8][..], &[(0, "no 20"), (5, "no 19")]].concat();
    let forks = [select_card(1), over_card(PARALLEL, END, 2), insert_nums(END, int(1))];
    let threads = joined(&[
        &world(),
        &forks,
        &[start(0, 0); 8],
        &[pick(0, 0), pick(0, 0), pick(0, 5), pick(7, 0), pick(8, 0)],
    ]);
    let answers =
        ["pick 0 done 0 0", "pick 1 no 20", "pick 2 no 19", "pick 3 done 0 0", "pick 4 no 11"];
    vec![
        case("20-stack", &nodes, &stack, &WORLD_LINES),
        example("20-threads", &threads, &[&answers[..], &WORLD_LINES].concat()),
    ]
}
