//! The text about looks: which threads, nodes and tables have a line, and what stands in it.

use engine::{load, look, run};
use generate::record::*;
use generate::{file as generated, Class};

const CARD: &Name = b"CARD";
const NUMS: &Name = b"NUMS";

fn text_of(records: &[Record]) -> String {
    String::from_utf8(engine::looked(&file(records))).expect("a text")
}

fn lines(lines: &[&str]) -> String {
    lines.iter().flat_map(|line| [*line, "\n"]).collect()
}

fn here(kind: u8) -> Record {
    node(kind, END).name(CARD).at(loc(0))
}

/// A node that takes no part in a run but for its T.
fn template(operands: &[Operand]) -> Record {
    here(DELETE).template(operands)
}

#[test]
fn a_line_has_each_row_of_a_table_in_order() {
    let wide = [INT, TEXT, LOC, INT];
    let records = [
        table(0, NUMS, &[INT]),
        table(1, CARD, &wide),
        table(0, CARD, &wide),
        row(0, NUMS, &[int(3)]),
        row(1, CARD, &[int(3), text(b"rig1"), loc(1), int(9)]),
        row(1, CARD, &[int(4), text(b"rig1"), loc(1), int(9)]),
        row(1, CARD, &[int(3), text(b"RIG2"), loc(1), int(9)]),
        row(1, CARD, &[int(3), text(b"RIG1"), loc(1), int(8)]),
        template(&[int(3), text(b"RIG1"), formal(0), int(9)]),
        template(&[int(4)]),
        start(0, 0),
    ];
    let wanted = [
        "looked 0 0 0 1-",
        "looked 0 0 1 4+ 1- 2- 4-",
        "looked 0 0 2",
        "looked 0 1 0 1-",
        "looked 0 1 1 1- 1- 1- 1-",
        "looked 0 1 2",
    ];
    assert_eq!(text_of(&records), lines(&wanted));
}

#[test]
fn nodes_of_seven_kinds_have_a_template() {
    let all = [formal(0)];
    let records = [
        table(0, CARD, &[INT]),
        row(0, CARD, &[int(4)]),
        here(INSERT).tuple(&[int(4)]),
        here(INSERT_TABLE),
        here(DELETE).template(&all),
        here(SELECT).template(&all).tuple(&[int(1)]),
        node(SELECT_VARIABLE, END).template(&all).tuple(&[int(1)]),
        here(UPDATE).template(&all).tuple(&[int(1)]),
        // T is (5); what the count is matched with would match the row.
        here(AGGREGATE).template(&[int(5)]).function(COUNT, 0).tuple(&[int(4)]),
        here(CREATE).columns(&[INT]),
        here(DROP),
        node(SEQUENTIAL, END).body(11).template(&all),
        node(PARALLEL, END).body(11).template(&[int(5)]),
        here(DROP),
        start(0, 0),
    ];
    let wanted = [
        "looked 0 2 0 1+",
        "looked 0 3 0 1+",
        "looked 0 4 0 1+",
        "looked 0 5 0 1+",
        "looked 0 6 0 1-",
        "looked 0 9 0 1+",
        "looked 0 10 0 1-",
    ];
    assert_eq!(text_of(&records), lines(&wanted));
}

/// A predicate has no part in matching, nor has the site that a node's L means.
#[test]
fn only_the_template_is_looked_at() {
    let records = [
        table(5, NUMS, &[INT, INT]),
        row(5, NUMS, &[int(4), int(4)]),
        template(&[formal(1), formal(2)]).predicate(LESS, int(1), int(0)),
        start(0, 0),
    ];
    assert_eq!(text_of(&records), lines(&["looked 0 0 0 2+"]));
}

/// The net is the one that the picks left, and each thread has its own variables.
#[test]
fn looks_are_those_of_the_threads_and_tables_left() {
    let forks = node(PARALLEL, 2).body(2).template(&[formal(1)]);
    let records = [
        table(0, CARD, &[INT]),
        table(0, NUMS, &[INT]),
        row(0, CARD, &[int(4)]),
        row(0, CARD, &[int(5)]),
        row(0, NUMS, &[int(7)]),
        here(SELECT).next(1).template(&[formal(0)]).tuple(&[var(0)]),
        forks,
        template(&[plus(1, -1)]),
        node(DROP, END).name(NUMS).at(loc(0)),
        start(0, 3),
        start(0, 0),
        pick(0, 0),
        pick(0, 0),
        pick(0, 1),
        pick(9, 9),
    ];
    let wanted = [
        "looked 0 0 0 1+ 1+",
        "looked 0 1 0 1+ 1+",
        "looked 0 2 0 1- 1-",
        "looked 1 0 0 1+ 1+",
        "looked 1 1 0 1+ 1+",
        "looked 1 2 0 1+ 1-",
    ];
    assert_eq!(text_of(&records), lines(&wanted));
}

#[test]
fn without_threads_templates_or_tables_there_are_no_lines() {
    let still = [table(0, CARD, &[INT]), row(0, CARD, &[int(4)])];
    let all = template(&[formal(0)]);
    assert_eq!(text_of(&still), "");
    assert_eq!(text_of(&[&still[..], &[all]].concat()), "");
    assert_eq!(text_of(&[&still[..], &[all, start(0, 0), pick(0, 0)]].concat()), "");
    assert_eq!(text_of(&[&still[..], &[here(DROP), start(0, 0)]].concat()), "");
    assert_eq!(text_of(&[all, start(0, 0)]), "");
    assert_eq!(text_of(&[]), "");
}

#[test]
fn a_refused_file_has_its_one_line() {
    assert_eq!(text_of(&[start(0, 0)]), "load 9 at 0\n");
    assert_eq!(engine::looked(&[0; 103]), b"load 1 at 0\n");
}

/// On generated files: each field looked at before the last matches by itself, and a last one that
/// matches too is the last that T or the row has.
#[test]
fn looks_stop_at_the_first_field_that_fails() {
    for seed in 0..200 {
        let (mut net, picks) = load(&generated(Class::Valid, seed)).expect("a file that loads");
        run(&mut net, &picks);
        for thread in &net.threads {
            let templates = net.nodes.iter().filter_map(|node| node.act.template());
            for (template, table) in
                templates.flat_map(|it| net.tables.iter().map(move |table| (it, table)))
            {
                for row in table.relation.rows.iter() {
                    let fields = template.iter().zip(row.iter()).map(|(operand, value)| {
                        let alone = [*operand].into_iter().collect();
                        look(&alone, &thread.variables, &[*value].into_iter().collect()).matches
                    });
                    let fields: Vec<bool> = fields.collect();
                    let look = look(template, &thread.variables, row);
                    let (last, before) = fields[..look.fields].split_last().expect("a field");
                    assert!(before.iter().all(|matches| *matches));
                    assert!(!last || look.fields == fields.len());
                    assert_eq!(look.matches, *last && template.len() == row.len());
                }
            }
        }
    }
}
