//! Each kind of step done, and the refusals 11 to 18 and 20 of steps that are no loops.
//! All run in one world: site 0 knows site 1 as locality 1.

use super::{example, joined, run, Example};
use crate::record::*;

const CARD: &Name = b"CARD";
const NUMS: &Name = b"NUMS";
const CARD_LINES: [&str; 3] = ["table 1 CARD 2", "row RIG1 36", "row rig2 40"];
const NUMS_LINE: &str = "table 0 NUMS 0";

pub fn all() -> Vec<Example> {
    [
        inserts(),
        deletes_and_selects(),
        updates(),
        aggregates(),
        creates_and_drops(),
        unbound(),
        places(),
        misfits(),
        full(),
        precedence(),
        vec![refused_steps()],
    ]
    .into_iter()
    .flatten()
    .collect()
}

pub fn world() -> Vec<Record> {
    vec![
        alias(0, 1, 1),
        table(1, CARD, &[TEXT, INT]),
        table(0, NUMS, &[INT]),
        row(1, CARD, &[text(b"RIG1"), int(36)]),
        row(1, CARD, &[text(b"rig2"), int(40)]),
    ]
}

/// A run of the nodes in the world, each pick with its answer, and the tables left.
pub fn case(
    name: &'static str,
    nodes: &[Record],
    picks: &[(u8, &str)],
    tables: &[&str],
) -> Example {
    let rows: Vec<u8> = picks.iter().map(|(row, _)| *row).collect();
    let answers: Vec<String> =
        picks.iter().enumerate().map(|(i, (_, answer))| format!("pick {i} {answer}")).collect();
    let lines: Vec<&str> =
        answers.iter().map(String::as_str).chain(tables.iter().copied()).collect();
    example(name, &joined(&[&world(), &run(nodes, &rows)]), &lines)
}

/// A run whose last pick is refused and whose others change no table.
pub fn refused(name: &'static str, nodes: &[Record], before: usize, number: u8) -> Example {
    let answer = format!("no {number}");
    let mut picks = vec![(0, "done 0 0"); before];
    picks.push((0, &answer));
    case(name, nodes, &picks, &[&CARD_LINES[..], &[NUMS_LINE]].concat())
}

fn on_card(kind: u8, next: u8) -> Record {
    node(kind, next).name(CARD).at(loc(1))
}

fn on_nums(kind: u8, next: u8) -> Record {
    node(kind, next).name(NUMS).at(loc(0))
}

pub fn select_card(next: u8) -> Record {
    on_card(SELECT, next).template(&[formal(0), formal(1)]).tuple(&[var(0), var(1)])
}

fn count_card(next: u8) -> Record {
    on_card(AGGREGATE, next).function(COUNT, 0).template(&[formal(0), formal(1)])
}

fn inserts() -> Vec<Example> {
    let insert = on_card(INSERT, END).tuple(&[text(b" x  "), int(-1)]);
    let inserted = ["table 1 CARD 3", "row RIG1 36", "row rig2 40", "row  x   -1", NUMS_LINE];
    let table_of_rows = [select_card(1).bound(1), on_card(INSERT_TABLE, END).read(1)];
    let doubled =
        ["table 1 CARD 4", "row RIG1 36", "row rig2 40", "row RIG1 36", "row rig2 40", NUMS_LINE];
    vec![
        case("16-insert", &[insert], &[(0, "done 1 0")], &inserted),
        case("17-insert-table", &table_of_rows, &[(9, "done 0 0"), (9, "done 2 0")], &doubled),
    ]
}

fn deletes_and_selects() -> Vec<Example> {
    let delete = on_card(DELETE, 1).template(&[formal(4), formal(1)]);
    let delete = delete.predicate(LESS, var(1), int(40));
    let back = [delete, on_card(INSERT_TABLE, END)];
    let moved = ["table 1 CARD 2", "row rig2 40", "row RIG1 36", NUMS_LINE];
    let select = on_card(SELECT, 1).template(&[formal(0), formal(1)]).bound(1);
    let constants = [
        select.tuple(&[loc(5), var(1), text(b"k   "), var(0)]).predicate(
            AT_MOST,
            text(b"RIG2"),
            var(0),
        ),
        node(CREATE, 2).name(b"WIDE").at(loc(0)).columns(&[LOC, INT, TEXT, TEXT]),
        node(INSERT_TABLE, END).name(b"WIDE").at(loc(0)).read(1),
    ];
    let stored = ["table 0 WIDE 1", "row @5 40 k    rig2"];
    let own = [
        select_card(1),
        node(SELECT_VARIABLE, 2).template(&[text(b"RIG2"), formal(9)]).tuple(&[var(9)]),
        on_nums(INSERT_TABLE, END),
    ];
    let narrowed = [&CARD_LINES[..], &["table 0 NUMS 1", "row 40"]].concat();
    vec![
        case("18-delete", &back, &[(0, "done 0 1"), (0, "done 1 0")], &moved),
        case(
            "19-select-constants",
            &constants,
            &[(0, "done 0 0"), (0, "done 0 0"), (0, "done 1 0")],
            &[&CARD_LINES[..], &[NUMS_LINE], &stored].concat(),
        ),
        case(
            "20-select-variable",
            &own,
            &[(0, "done 0 0"), (0, "done 0 0"), (0, "done 1 0")],
            &narrowed,
        ),
    ]
}

fn updates() -> Vec<Example> {
    let all = on_card(UPDATE, END).template(&[formal(0), formal(1)]);
    let edge = [all.tuple(&[text(b"edge"), plus(1, i32::MAX - 38)])];
    let partly = ["table 1 CARD 2", "row edge 2147483645", "row rig2 40", NUMS_LINE];
    let same = [all.tuple(&[var(0), var(1)])];
    let short = [all.tuple(&[var(0)])];
    let unchanged = [&CARD_LINES[..], &[NUMS_LINE]].concat();
    vec![
        case("21-update-of-what-fits", &edge, &[(0, "done 1 1")], &partly),
        case("21-update-to-the-same", &same, &[(0, "done 2 2")], &unchanged),
        case("21-update-of-short-tuple", &short, &[(0, "done 0 0")], &unchanged),
    ]
}

fn aggregates() -> Vec<Example> {
    let over = |next, function, column, variable| {
        let node = on_card(AGGREGATE, next).function(function, column);
        node.template(&[formal(0), formal(1)]).tuple(&[formal(variable)])
    };
    let store = |next, variable| on_nums(INSERT, next).tuple(&[var(variable)]);
    let nodes = [
        over(1, COUNT, 0, 2),
        over(2, SUM, 1, 3),
        over(3, LEAST, 1, 4),
        over(4, LARGEST, 1, 5),
        store(5, 2),
        store(6, 3),
        store(7, 4),
        store(END, 5),
    ];
    let picks = [[(0, "done 0 0"); 4], [(0, "done 1 0"); 4]].concat();
    let lines =
        [&CARD_LINES[..], &["table 0 NUMS 4", "row 2", "row 76", "row 36", "row 40"]].concat();
    let sum_twice = [
        on_card(UPDATE, 1).template(&[formal(0), formal(1)]).tuple(&[var(0), int(i32::MAX)]),
        over(END, SUM, 1, 2),
    ];
    let large = ["table 1 CARD 2", "row RIG1 2147483647", "row rig2 2147483647", NUMS_LINE];
    let empty = on_nums(AGGREGATE, END).template(&[formal(0)]).tuple(&[formal(1)]);
    vec![
        case("22-aggregates", &nodes, &picks, &lines),
        case("18-sum-leaves-32-bits", &sum_twice, &[(0, "done 2 2"), (0, "no 18")], &large),
        refused("18-largest-of-none", &[empty.function(LARGEST, 0)], 0, 18),
        refused("18-result-differs", &[count_card(END).tuple(&[int(3)])], 0, 18),
        refused("18-result-of-other-kind", &[count_card(END).tuple(&[loc(2)])], 0, 18),
        refused(
            "18-result-without-value",
            &[over(1, SUM, 1, 7), count_card(END).tuple(&[plus(7, i32::MAX)])],
            1,
            18,
        ),
    ]
}

fn creates_and_drops() -> Vec<Example> {
    let create = on_card(CREATE, END).name(b"card").columns(&[LOC]);
    let created = [&CARD_LINES[..], &[NUMS_LINE, "table 1 card 0"]].concat();
    vec![
        case("23-create", &[create], &[(0, "done 0 0")], &created),
        refused("15-create", &[on_card(CREATE, END).columns(&[INT])], 0, 15),
        case("24-drop", &[on_card(DROP, END)], &[(0, "done 0 2")], &[NUMS_LINE]),
        case(
            "11-thread-gone",
            &[on_card(DROP, END)],
            &[(0, "done 0 2"), (0, "no 11")],
            &[NUMS_LINE],
        ),
    ]
}

fn unbound() -> Vec<Example> {
    let delete = on_card(DELETE, END).template(&[formal(0), formal(1)]);
    vec![
        refused("12-locality", &[node(DROP, END).name(CARD).at(var(0))], 0, 12),
        refused("12-template", &[delete.template(&[formal(0), var(0)])], 0, 12),
        refused("12-sum-in-template", &[delete.template(&[formal(0), plus(0, 1)])], 0, 12),
        refused("12-predicate", &[delete.predicate(EQUAL, var(0), var(2))], 0, 12),
        refused("12-tuple", &[on_nums(INSERT, END).tuple(&[plus(3, 1)])], 0, 12),
        refused(
            "12-tuple-of-empty-table",
            &[on_nums(UPDATE, END).template(&[formal(0)]).tuple(&[var(1)])],
            0,
            12,
        ),
        refused("12-result", &[count_card(END).tuple(&[var(0)])], 0, 12),
        refused(
            "12-result-binds-no-predicate",
            &[count_card(END).tuple(&[formal(2)]).predicate(EQUAL, var(2), int(2))],
            0,
            12,
        ),
        refused("12-table-variable", &[on_nums(INSERT_TABLE, END).read(1)], 0, 12),
    ]
}

fn places() -> Vec<Example> {
    let count = count_card(1).tuple(&[formal(6)]);
    vec![
        refused("13-int", &[count, node(DROP, END).name(CARD).at(var(6))], 1, 13),
        refused("13-no-alias", &[node(DROP, END).name(CARD).at(loc(2))], 0, 13),
        refused("14-name-by-case", &[node(DROP, END).name(b"Card").at(loc(1))], 0, 14),
        refused("14-other-site", &[node(DROP, END).name(CARD).at(loc(0))], 0, 14),
    ]
}

fn misfits() -> Vec<Example> {
    let largest = |column| {
        let node = on_card(AGGREGATE, END).function(LARGEST, column);
        node.template(&[formal(0), formal(1)]).tuple(&[formal(2)])
    };
    let delete = on_card(DELETE, END).template(&[formal(0)]);
    vec![
        refused("16-template-short", &[delete], 0, 16),
        refused("16-template-long", &[delete.template(&[formal(0), formal(1), int(1)])], 0, 16),
        refused("16-insert-kind", &[on_nums(INSERT, END).tuple(&[loc(1)])], 0, 16),
        refused("16-insert-long", &[on_nums(INSERT, END).tuple(&[int(1), int(1)])], 0, 16),
        refused("16-columns", &[select_card(1), on_nums(INSERT_TABLE, END)], 1, 16),
        refused("16-column-absent", &[largest(2)], 0, 16),
        refused("16-column-no-int", &[largest(0)], 0, 16),
    ]
}

/// Fills CARD to sixteen rows from the two it has, and goes on with other nodes at number 8.
fn filling(then: &[Record]) -> Vec<Record> {
    let doubling = (2..=8).map(|next| on_card(INSERT_TABLE, next));
    [select_card(1)].into_iter().chain(doubling).chain(then.iter().copied()).collect()
}

fn full() -> Vec<Example> {
    let filled = [&[(0, "done 0 0")][..], &[(0, "done 2 0"); 7]].concat();
    let pairs = ["row RIG1 36", "row rig2 40"].repeat(8);
    let sixteen = [&["table 1 CARD 16"], &pairs[..], &[NUMS_LINE]].concat();
    let over = filling(&[on_card(INSERT_TABLE, END)]);
    let none = select_card(9).predicate(EQUAL, int(1), int(2));
    let no_rows = filling(&[none, on_card(INSERT_TABLE, END)]);
    let unfit = filling(&[on_card(INSERT, END).tuple(&[int(1)])]);
    vec![
        case("20-insert-table", &over, &[&filled[..], &[(0, "no 20")]].concat(), &sixteen),
        case(
            "17-no-rows-into-full-table",
            &no_rows,
            &[&filled[..], &[(0, "done 0 0"); 2]].concat(),
            &sixteen,
        ),
        case("16-before-20", &unfit, &[&filled[..], &[(0, "no 16")]].concat(), &sixteen),
        ninth_table(),
    ]
}

fn ninth_table() -> Example {
    let create = |letter: u8, next| {
        node(CREATE, next).name(&[letter, b' ', b' ', b' ']).at(loc(0)).columns(&[INT])
    };
    let nodes = [
        create(b'A', 1),
        create(b'B', 2),
        create(b'C', 3),
        create(b'D', 4),
        create(b'E', 5),
        create(b'F', 6),
        create(b'G', END),
    ];
    let picks = [&[(0, "done 0 0"); 6][..], &[(0, "no 20")]].concat();
    let lines = ["table 0 A    0", "table 0 B    0", "table 0 C    0"];
    let more = ["table 0 D    0", "table 0 E    0", "table 0 F    0"];
    case("20-create", &nodes, &picks, &[&CARD_LINES[..], &[NUMS_LINE], &lines, &more].concat())
}

fn precedence() -> Vec<Example> {
    let insert = node(INSERT, END).name(b"NONE").at(loc(2));
    let least = on_nums(AGGREGATE, END).function(LEAST, 1).template(&[formal(0)]);
    vec![
        refused("12-before-13", &[insert.tuple(&[var(0)])], 0, 12),
        refused("13-before-14", &[insert.tuple(&[int(0)])], 0, 13),
        refused("14-before-16", &[insert.at(loc(0)).tuple(&[loc(0), loc(0)])], 0, 14),
        refused("16-before-18", &[least.tuple(&[int(0)])], 0, 16),
    ]
}

/// One thread for each of several numbers; thread 6 is not there.
fn refused_steps() -> Example {
    let nodes = [
        on_nums(INSERT, END).tuple(&[var(0)]),
        node(DROP, END).name(CARD).at(loc(2)),
        on_nums(DROP, END).name(CARD),
        on_nums(CREATE, END).columns(&[INT]),
        on_nums(INSERT, END).tuple(&[text(b"RIG1")]),
        on_nums(AGGREGATE, END).function(LEAST, 0).template(&[formal(0)]).tuple(&[formal(1)]),
    ];
    let starts: Vec<Record> = (0..6).map(|place| start(0, place)).collect();
    let picks: Vec<Record> = (0..7).map(|place| pick(place, 0)).collect();
    let answers = ["pick 0 no 12", "pick 1 no 13", "pick 2 no 14", "pick 3 no 15"];
    let more = ["pick 4 no 16", "pick 5 no 18", "pick 6 no 11"];
    let lines = [&answers[..], &more, &CARD_LINES, &[NUMS_LINE]].concat();
    example("refused-steps", &joined(&[&world(), &nodes, &starts, &picks]), &lines)
}
