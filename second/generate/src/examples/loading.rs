//! A file for each number 1 to 9, for their order, and at each limit of loading.

use super::{example, example_of_bytes, filled, joined, Example};
use crate::record::*;

const CARD: &Name = b"CARD";

pub fn all() -> Vec<Example> {
    [lengths(), fields(), order_and_repeats(), rows(), limits(), targets(), precedence()]
        .into_iter()
        .flatten()
        .collect()
}

fn drop_card(next: u8) -> Record {
    node(DROP, next).name(CARD).at(loc(0))
}

fn lengths() -> Vec<Example> {
    let tail = [file(&[alias(0, 1, 0)]), vec![1]].concat();
    let long_tail = [file(&[pick(0, 0); 257]), vec![0; 5]].concat();
    vec![
        example_of_bytes("01-length", tail, &["load 1 at 1"]),
        example_of_bytes("01-length-before-records", long_tail, &["load 1 at 257"]),
        example("02-records", &[Record::new(0); 257], &["load 2 at 256"]),
        example("02-records-before-kinds", &[Record::new(99); 300], &["load 2 at 256"]),
        example("03-kind-zero", &[Record::new(0)], &["load 3 at 0"]),
        example("03-kind-after-nodes", &[alias(0, 1, 0), Record::new(27)], &["load 3 at 1"]),
    ]
}

/// Files of one record that breaks check 4.
fn fields() -> Vec<Example> {
    let delete = node(DELETE, END).name(CARD).at(loc(0)).template(&[formal(0)]);
    let select = node(SELECT, END).name(CARD).at(loc(0)).template(&[formal(0)]);
    let count = node(AGGREGATE, END).name(CARD).at(loc(0)).template(&[int(1)]).tuple(&[int(1)]);
    let broken = [
        ("04-alias-of-locality-zero", alias(0, 0, 1)),
        ("04-alias-site", alias(8, 1, 1)),
        ("04-name", table(0, b"CAR\x7F", &[INT])),
        ("04-no-columns", table(0, CARD, &[])),
        ("04-column-after-gap", table(0, CARD, &[INT, 0, INT])),
        ("04-row-of-no-values", row(0, CARD, &[])),
        ("04-row-with-variable", row(0, CARD, &[var(1)])),
        ("04-text-byte", row(0, CARD, &[text(b"a\x1Fbc")])),
        ("04-loc-eight", row(0, CARD, &[loc(8)])),
        ("04-unused-byte", start(0, 0).byte(50, 1)),
        ("04-gap-of-node", drop_card(END).byte(12, 1)),
        ("04-locality-tag", node(DROP, END).name(CARD).at(int(1))),
        ("04-variable-sixteen", node(DROP, END).name(CARD).at(var(16))),
        ("04-bound-two", delete.bound(2)),
        ("04-read-of-delete", delete.read(1)),
        ("04-formal-twice", delete.template(&[formal(3), int(1), formal(3)])),
        ("04-operands-of-predicate-zero", delete.predicate(0, int(1), int(1))),
        ("04-predicate-five", delete.predicate(5, int(1), int(1))),
        ("04-formal-in-predicate", delete.predicate(EQUAL, formal(0), int(1))),
        ("04-sum-in-select", select.tuple(&[plus(0, 1)])),
        ("04-formal-in-tuple", select.tuple(&[formal(0)])),
        ("04-function-zero", count),
        ("04-column-of-count", count.function(COUNT, 1)),
        ("04-column-four", count.function(SUM, 4)),
        ("04-second-result", count.function(COUNT, 0).tuple(&[int(1), int(1)])),
        ("04-body-of-drop", drop_card(END).body(1)),
    ];
    broken.iter().map(|(name, record)| example(name, &[*record], &["load 4 at 0"])).collect()
}

fn order_and_repeats() -> Vec<Example> {
    let table_first = [table(0, CARD, &[INT]), alias(0, 1, 0)];
    let pick_first = [drop_card(END), pick(0, 0), start(0, 0)];
    let names = [table(0, CARD, &[INT]), table(0, b"card", &[INT]), table(1, CARD, &[INT])];
    let repeated = joined(&[&names, &[table(0, b"card", &[TEXT])]]);
    let lines = ["table 0 CARD 0", "table 0 card 0", "table 1 CARD 0"];
    vec![
        example("05-alias-after-table", &table_first, &["load 5 at 1"]),
        example("05-start-after-pick", &pick_first, &["load 5 at 2"]),
        example("06-alias", &[alias(2, 3, 4), alias(2, 3, 5)], &["load 6 at 1"]),
        example("06-table", &repeated, &["load 6 at 3"]),
        example("names-compare-exactly", &names, &lines),
    ]
}

fn rows() -> Vec<Example> {
    let card = table(0, CARD, &[INT, TEXT]);
    let at = |values: &[Operand]| [card, row(0, CARD, values)];
    vec![
        example("07-no-table", &[card, row(1, CARD, &[int(1)])], &["load 7 at 1"]),
        example("07-name-by-case", &[card, row(0, b"card", &[int(1)])], &["load 7 at 1"]),
        example("07-short", &at(&[int(1)]), &["load 7 at 1"]),
        example("07-long", &at(&[int(1), text(b"a   "), int(1)]), &["load 7 at 1"]),
        example("07-kind", &at(&[int(1), loc(1)]), &["load 7 at 1"]),
        example(
            "values-of-each-kind",
            &filled(7, CARD, &[INT, TEXT, LOC], &[&[int(i32::MIN), text(b" ~a "), loc(7)]]),
            &["table 7 CARD 1", "row -2147483648  ~a  @7"],
        ),
    ]
}

fn tables(count: u8) -> Vec<Record> {
    (0..count).map(|number| table(number % 8, &[b'T', b'A' + number, b' ', b' '], &[LOC])).collect()
}

fn limits() -> Vec<Example> {
    let rows = |count| joined(&[&[table(0, CARD, &[INT])], &vec![row(0, CARD, &[int(3)]); count]]);
    let starts = |count| joined(&[&[drop_card(END)], &vec![start(0, 0); count]]);
    let nodes = |count| vec![drop_card(END); count];
    let full = joined(&[&nodes(128), &[start(0, 127); 8], &[pick(200, 9); 120]]);
    let refused: Vec<String> = (0..120).map(|place| format!("pick {place} no 11")).collect();
    let full_lines: Vec<&str> = refused.iter().map(String::as_str).collect();
    let beyond = joined(&[&full[..136], &[pick(200, 9); 121]]);
    let table_lines = [
        "table 0 TA   0",
        "table 1 TB   0",
        "table 2 TC   0",
        "table 3 TD   0",
        "table 4 TE   0",
        "table 5 TF   0",
        "table 6 TG   0",
        "table 7 TH   0",
    ];
    let row_lines = [&["table 0 CARD 16"][..], &["row 3"; 16]].concat();
    vec![
        example("limit-tables", &tables(8), &table_lines),
        example("08-ninth-table", &tables(9), &["load 8 at 8"]),
        example("limit-rows", &rows(16), &row_lines),
        example("08-seventeenth-row", &rows(17), &["load 8 at 17"]),
        example("limit-starts", &starts(8), &[]),
        example("08-ninth-start", &starts(9), &["load 8 at 9"]),
        example("limit-nodes", &nodes(128), &[]),
        example("08-node-129", &nodes(129), &["load 8 at 128"]),
        example("limit-records", &full, &full_lines),
        example("02-record-257", &beyond, &["load 2 at 256"]),
    ]
}

fn targets() -> Vec<Example> {
    let looping = |next, body| node(SEQUENTIAL, next).body(body).template(&[formal(0)]);
    let card = table(0, CARD, &[INT]);
    vec![
        example("09-next-to-itself", &[card, drop_card(0)], &["load 9 at 1"]),
        example("09-next-back", &[drop_card(1), drop_card(0)], &["load 9 at 1"]),
        example("09-next-missing", &[drop_card(1)], &["load 9 at 0"]),
        example("09-body-end", &[looping(END, END), drop_card(END)], &["load 9 at 0"]),
        example("09-body-to-itself", &[looping(1, 0), drop_card(END)], &["load 9 at 0"]),
        example("09-start", &[card, drop_card(END), start(0, 1)], &["load 9 at 2"]),
        example("09-start-end", &[drop_card(END), start(0, END)], &["load 9 at 1"]),
        example("next-and-body-above", &[looping(1, 1), drop_card(END)], &[]),
    ]
}

/// Records with more than one fault.
fn precedence() -> Vec<Example> {
    let misplaced = [table(0, CARD, &[INT]), alias(0, 1, 0).byte(9, 9)];
    let misplaced_repeat =
        [alias(0, 1, 0), table(0, CARD, &[INT]), row(0, CARD, &[int(1)]), table(0, CARD, &[INT])];
    let ninth_repeat = joined(&[&tables(8), &tables(1)]);
    let late = [drop_card(0), drop_card(END), start(0, 0), pick(0, 0).byte(3, 1)];
    let full = joined(&[&[table(0, CARD, &[INT])], &[row(0, CARD, &[int(3)]); 16]]);
    let unfit = joined(&[&full, &[row(0, CARD, &[loc(3)])]]);
    vec![
        example("04-before-05", &misplaced, &["load 4 at 1"]),
        example("05-before-06", &misplaced_repeat, &["load 5 at 3"]),
        example("06-before-08", &ninth_repeat, &["load 6 at 8"]),
        example("07-before-08", &unfit, &["load 7 at 17"]),
        example("04-before-09", &late, &["load 4 at 3"]),
    ]
}
