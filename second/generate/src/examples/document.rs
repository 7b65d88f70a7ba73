//! Examples (a) to (k) of document 01.

use super::{example, example_of_bytes, filled, joined, run, Example};
use crate::record::*;

const NUMS: &Name = b"NUMS";
const GOAL: &Name = b"GOAL";

pub fn all() -> Vec<Example> {
    vec![
        example_of_bytes("a-empty", Vec::new(), &[]).with_page(&[]),
        example_of_bytes("b-length", vec![0; 103], &["load 1 at 0"]),
        update_past_32_bits(),
        insert_past_32_bits(),
        sums(),
        fifteen_rows(),
        sixteen_rows(),
        folded_delete(),
        equal_rows_selected(),
        unlike_kinds(),
        own_table_doubled(),
        printed_run(),
    ]
}

fn numbers(values: &[i32]) -> Vec<Record> {
    let rows = values.iter().map(|value| row(0, NUMS, &[int(*value)]));
    std::iter::once(table(0, NUMS, &[INT])).chain(rows).collect()
}

/// A node on the table NUMS of the thread's own site.
fn on_nums(kind: u8, next: u8) -> Record {
    node(kind, next).name(NUMS).at(loc(0))
}

fn update_past_32_bits() -> Example {
    let nodes = [on_nums(UPDATE, END).template(&[formal(0)]).tuple(&[plus(0, 1)])];
    let records = joined(&[&numbers(&[i32::MAX]), &run(&nodes, &[0])]);
    example(
        "c-update-past-32-bits",
        &records,
        &["pick 0 done 0 0", "table 0 NUMS 1", "row 2147483647"],
    )
}

fn insert_past_32_bits() -> Example {
    let nodes = [
        on_nums(AGGREGATE, 1).function(LARGEST, 0).template(&[formal(0)]).tuple(&[formal(1)]),
        on_nums(INSERT, END).tuple(&[plus(1, 1)]),
    ];
    let records = joined(&[&numbers(&[i32::MAX]), &run(&nodes, &[0, 0])]);
    let lines = ["pick 0 done 0 0", "pick 1 no 16", "table 0 NUMS 1", "row 2147483647"];
    example("d-insert-past-32-bits", &records, &lines)
}

fn sums() -> Example {
    let negative = |function, next| {
        let node = on_nums(AGGREGATE, next).function(function, 0).template(&[formal(0)]);
        node.predicate(LESS, var(0), int(0))
    };
    let nodes = [
        on_nums(AGGREGATE, 1).function(SUM, 0).template(&[formal(0)]).tuple(&[int(12)]),
        negative(SUM, 2).tuple(&[int(0)]),
        negative(LEAST, END).tuple(&[formal(1)]),
    ];
    let records = joined(&[&numbers(&[2, 5, 1, 2, 2]), &run(&nodes, &[0, 0, 0])]);
    let lines = [
        "pick 0 done 0 0",
        "pick 1 done 0 0",
        "pick 2 no 18",
        "table 0 NUMS 5",
        "row 2",
        "row 5",
        "row 1",
        "row 2",
        "row 2",
    ];
    example("e-sums", &records, &lines)
}

fn fifteen_rows() -> Example {
    let nodes = [on_nums(INSERT, END).tuple(&[int(-7)])];
    let records = joined(&[&numbers(&[4; 15]), &run(&nodes, &[0])]);
    let mut lines = vec!["pick 0 done 1 0", "table 0 NUMS 16"];
    lines.extend(["row 4"; 15]);
    lines.push("row -7");
    example("f-insert-into-fifteen", &records, &lines)
}

fn sixteen_rows() -> Example {
    let nodes = [on_nums(INSERT, END).tuple(&[int(-7)])];
    let records = joined(&[&numbers(&[4; 16]), &run(&nodes, &[0])]);
    let mut lines = vec!["pick 0 no 20", "table 0 NUMS 16"];
    lines.extend(["row 4"; 16]);
    example("f-insert-into-sixteen", &records, &lines)
}

fn folded_delete() -> Example {
    let rows = filled(0, GOAL, &[TEXT], &[&[text(b"TEAL")], &[text(b"tea ")], &[text(b"tEaL")]]);
    let nodes = [node(DELETE, END).name(GOAL).at(loc(0)).template(&[text(b"teal")])];
    let records = joined(&[&rows, &run(&nodes, &[0])]);
    example("g-folded-delete", &records, &["pick 0 done 0 2", "table 0 GOAL 1", "row tea "])
}

fn equal_rows_selected() -> Example {
    let goal = table(0, GOAL, &[INT]);
    let [head, rows @ ..] = &numbers(&[6, 6])[..] else { unreachable!("a table and its rows") };
    let nodes = [
        on_nums(SELECT, 1).template(&[formal(0)]).tuple(&[var(0)]).bound(1),
        node(INSERT_TABLE, END).name(GOAL).at(loc(0)).read(1),
    ];
    let records = joined(&[&[*head, goal], rows, &run(&nodes, &[0, 0])]);
    let lines = [
        "pick 0 done 0 0",
        "pick 1 done 2 0",
        "table 0 NUMS 2",
        "row 6",
        "row 6",
        "table 0 GOAL 2",
        "row 6",
        "row 6",
    ];
    example("h-equal-rows-selected", &records, &lines)
}

fn unlike_kinds() -> Example {
    let nodes =
        [on_nums(DELETE, END).template(&[formal(0)]).predicate(UNEQUAL, int(1), text(b"A   "))];
    let records = joined(&[&numbers(&[1]), &run(&nodes, &[0])]);
    example("i-unlike-kinds", &records, &["pick 0 done 0 0", "table 0 NUMS 1", "row 1"])
}

fn own_table_doubled() -> Example {
    let nodes =
        [on_nums(SELECT, 1).template(&[formal(3)]).tuple(&[var(3)]), on_nums(INSERT_TABLE, END)];
    let records = joined(&[&numbers(&[8, 9]), &run(&nodes, &[0, 0])]);
    let lines = [
        "pick 0 done 0 0",
        "pick 1 done 2 0",
        "table 0 NUMS 4",
        "row 8",
        "row 9",
        "row 8",
        "row 9",
    ];
    example("j-own-table-doubled", &records, &lines)
}

fn printed_run() -> Example {
    let update = node(UPDATE, END)
        .name(b"CARD")
        .at(loc(1))
        .template(&[text(b"rig1"), formal(0)])
        .predicate(LESS, var(0), int(40))
        .tuple(&[text(b"RIG1"), plus(0, 2)]);
    let records = [
        alias(0, 1, 1),
        table(1, b"CARD", &[TEXT, INT]),
        row(1, b"CARD", &[text(b"RIG1"), int(36)]),
        update,
        start(0, 0),
        pick(0, 0),
        pick(0, 0),
    ];
    let lines = ["pick 0 done 1 1", "pick 1 no 11", "table 1 CARD 1", "row RIG1 38"];
    example("k-printed-run", &records, &lines)
}
