//! What a round binds ends with the round: what is kept, when it comes back, and what does not.

use engine::{load, sound, step, Act, Bindings, Entry, Net, Pick, Places, Value};
use generate::record::*;
use std::slice;

const CARD: &Name = b"CARD";
const NUMS: &Name = b"NUMS";

/// Three Ints in CARD, which node 0 selects into table variable 0. Node 1 follows.
fn net(nodes: &[Record]) -> Net {
    let select = node(SELECT, 1).name(CARD).at(loc(0)).template(&[formal(0)]).tuple(&[var(0)]);
    let still = [
        table(0, CARD, &[INT]),
        table(0, NUMS, &[INT]),
        row(0, CARD, &[int(4)]),
        row(0, CARD, &[int(5)]),
        row(0, CARD, &[int(6)]),
    ];
    let records = [&still[..], &[select], nodes, &[start(0, 0)]].concat();
    load(&file(&records)).expect("a good net").0
}

/// Binds a variable to the sum of CARD, which is 15.
fn sum(next: u8, variable: u8) -> Record {
    let record = node(AGGREGATE, next).name(CARD).at(loc(0)).function(SUM, 0);
    record.template(&[formal(9)]).tuple(&[formal(variable)])
}

/// Binds table variable 1 to the rows of NUMS.
fn select_nums(next: u8) -> Record {
    let record = node(SELECT, next).name(NUMS).at(loc(0)).bound(1);
    record.template(&[formal(9)]).tuple(&[var(9)])
}

fn insert(next: u8, value: Operand) -> Record {
    node(INSERT, next).name(NUMS).at(loc(0)).tuple(&[value])
}

/// A loop over the three rows that binds variable 1.
fn each(kind: u8, next: u8, body: u8) -> Record {
    node(kind, next).body(body).template(&[formal(1)])
}

/// Picks of thread 0 with these row places, all of them done.
fn done(net: &mut Net, rows: &[u8]) {
    for row in rows {
        step(net, Pick { thread: 0, row: *row }).expect("a pick that is done");
        assert!(sound(net));
    }
}

fn bindings(net: &Net) -> Bindings {
    net.threads[0].bindings()
}

fn int_of(net: &Net, variable: usize) -> Option<Value> {
    net.threads[0].variables[variable]
}

const FIFTEEN: Option<Value> = Some(Value::Int(15));

#[test]
fn a_loop_keeps_what_stands_before_its_first_formals_bind() {
    let mut net = net(&[each(SEQUENTIAL, END, 2), sum(END, 1)]);
    done(&mut net, &[0]);
    let met = bindings(&net);
    assert!(net.threads[0].kept.is_empty());
    done(&mut net, &[1]);
    assert_eq!(int_of(&net, 1), Some(Value::Int(5)));
    assert_eq!(net.threads[0].kept, [met]);
}

#[test]
fn all_comes_back_in_the_very_step_that_removes_the_bodys_entry() {
    let body = [select_nums(3), sum(4, 2), insert(END, var(2))];
    let mut net = net(&[&[each(SEQUENTIAL, END, 2)], &body[..]].concat());
    done(&mut net, &[0]);
    let met = bindings(&net);
    for row in [2, 0, 1] {
        done(&mut net, &[row, 0, 0]);
        // A next inside the body brings nothing back.
        assert_eq!(int_of(&net, 2), FIFTEEN);
        assert!(int_of(&net, 1).is_some() && bindings(&net).tables[1].is_some());
        done(&mut net, &[0]);
        assert_eq!(bindings(&net), met);
        assert_eq!(net.threads[0].kept, slice::from_ref(&met));
    }
    // What the body did to tables stays.
    assert_eq!(net.tables[1].relation.rows.len(), 3);
}

#[test]
fn what_the_last_step_binds_is_lost_at_once() {
    for last in [sum(END, 3), select_nums(END)] {
        let mut net = net(&[each(SEQUENTIAL, END, 2), last]);
        done(&mut net, &[0]);
        let met = bindings(&net);
        done(&mut net, &[0, 0]);
        assert_eq!(bindings(&net), met);
    }
}

#[test]
fn after_the_loop_stands_what_stood_before_it() {
    let nodes =
        [sum(2, 1), select_nums(3), each(SEQUENTIAL, 5, 4), sum(END, 7), insert(END, var(1))];
    let mut net = net(&nodes);
    done(&mut net, &[0, 0, 0]);
    let met = bindings(&net);
    done(&mut net, &[0, 0, 1, 0, 2, 0, 0]);
    assert_eq!(bindings(&net), met);
    assert!(net.threads[0].kept.is_empty());
    done(&mut net, &[0]);
    assert_eq!(net.tables[1].relation.rows[0][0], Value::Int(15));
}

#[test]
fn rows_visited_do_not_come_back() {
    let mut net = net(&[each(SEQUENTIAL, END, 2), sum(END, 2)]);
    done(&mut net, &[0, 1, 0]);
    let left = Entry::Loop { node: 1, left: Places(0b101) };
    assert_eq!(net.threads[0].stack[..], [left]);
    assert_eq!(step(&mut net, Pick { thread: 0, row: 1 }), Err(19));
}

#[test]
fn a_loop_without_a_round_keeps_nothing() {
    let none = node(SEQUENTIAL, 2).body(2).template(&[int(7)]);
    let mut net = net(&[none, insert(END, int(1))]);
    done(&mut net, &[0]);
    let met = bindings(&net);
    done(&mut net, &[0]);
    assert!(net.threads[0].kept.is_empty());
    assert_eq!((bindings(&net), net.threads[0].stack[..].to_vec()), (met, vec![Entry::Run(2)]));
}

/// The body binds a variable and ends with a loop of its own, which is over with or without a
/// round.
#[test]
fn a_loop_that_is_over_ends_the_round_around_it() {
    let all = [formal(3)];
    for (kind, template, rows) in [
        (SEQUENTIAL, &all[..], &[0, 0, 1, 0, 2, 0][..]),
        (PARALLEL, &all, &[0, 1, 2]),
        (SEQUENTIAL, &[int(7)], &[]),
        (PARALLEL, &[int(7)], &[]),
    ] {
        let inner = node(kind, END).body(4).template(template);
        let mut net = net(&[each(SEQUENTIAL, END, 2), sum(3, 2), inner, select_nums(END)]);
        done(&mut net, &[0]);
        let met = bindings(&net);
        done(&mut net, &[0, 0]);
        let in_round = bindings(&net);
        done(&mut net, rows);
        assert_eq!(bindings(&net), in_round, "{kind}");
        done(&mut net, &[0]);
        assert_eq!(bindings(&net), met, "{kind}");
        assert_eq!(net.threads[0].stack.len(), 1);
        assert_eq!(net.threads[0].kept, [met]);
    }
}

#[test]
fn a_parallel_loop_keeps_nothing_and_its_forks_neither() {
    let nodes = [each(SEQUENTIAL, END, 2), each(PARALLEL, END, 3), sum(4, 2), sum(END, 3)];
    let mut net = net(&nodes);
    done(&mut net, &[0, 1]);
    let in_round = bindings(&net);
    done(&mut net, &[2]);
    assert_eq!(net.threads[0].kept.len(), 1);
    let fork = &net.threads[1];
    assert_eq!((fork.kept.len(), fork.stack[..].to_vec()), (0, vec![Entry::Run(3)]));
    assert_eq!(fork.variables[1], Some(Value::Int(6)));
    assert_eq!(fork.tables, in_round.tables);
    step(&mut net, Pick { thread: 1, row: 0 }).expect("a sum");
    assert_eq!(net.threads[1].variables[2], FIFTEEN);
    assert_eq!(bindings(&net), in_round);
}

#[test]
fn what_is_kept_comes_back_whatever_stands_bound() {
    let mut net = net(&[each(SEQUENTIAL, END, 2), sum(END, 1)]);
    done(&mut net, &[0, 0, 0]);
    // Sound by hand: the record and the thread's own need not agree on variables.
    net.threads[0].kept[0].variables[8] = Some(Value::Int(-8));
    net.threads[0].variables[9] = Some(Value::Int(9));
    let kept = net.threads[0].kept.clone();
    done(&mut net, &[1]);
    assert_eq!(net.threads[0].kept, kept);
    assert_eq!((int_of(&net, 8), int_of(&net, 9)), (None, Some(Value::Int(9))));
    done(&mut net, &[0]);
    assert_eq!(bindings(&net), kept[0]);
}

/// Stacks that no pick leads to: the body above a parallel loop's entry and above an entry to run.
#[test]
fn above_other_entries_nothing_comes_back() {
    let mut start = net(&[each(PARALLEL, END, 2), sum(END, 1)]);
    done(&mut start, &[0, 0]);
    for below in [start.threads[0].stack[0], Entry::Run(1)] {
        let mut net = start.clone();
        net.threads[0].stack[0] = below;
        net.threads[0].stack.push(Entry::Run(2));
        done(&mut net, &[0]);
        assert_eq!(int_of(&net, 1), FIFTEEN);
        assert_eq!(net.threads[0].stack[..], [below]);
    }
}

/// Only the entry directly below counts: another loop further down keeps what it keeps.
#[test]
fn an_entry_to_run_between_two_entries_brings_nothing_back() {
    let mut net = net(&[each(SEQUENTIAL, END, 2), sum(END, 2)]);
    done(&mut net, &[0]);
    let met = bindings(&net);
    done(&mut net, &[0]);
    net.threads[0].stack.push(Entry::Run(2));
    done(&mut net, &[0]);
    assert_eq!(int_of(&net, 2), FIFTEEN);
    done(&mut net, &[0]);
    assert_eq!(bindings(&net), met);
}

#[test]
fn each_of_two_loops_brings_back_its_own() {
    let inner = node(SEQUENTIAL, 5).body(4).template(&[formal(2)]);
    let nodes = [each(SEQUENTIAL, END, 2), sum(3, 3), inner, sum(END, 4), sum(END, 5)];
    let mut net = net(&nodes);
    assert!(matches!(net.nodes[3].act, Act::Loop(_)));
    done(&mut net, &[0]);
    let outer = bindings(&net);
    done(&mut net, &[1, 0]);
    let met = bindings(&net);
    assert_eq!(int_of(&net, 1), Some(Value::Int(5)));
    done(&mut net, &[2]);
    assert_eq!(net.threads[0].kept, [outer.clone(), met.clone()]);
    done(&mut net, &[0]);
    assert_eq!(bindings(&net), met);
    done(&mut net, &[0, 0, 1, 0, 0]);
    assert_eq!((bindings(&net), net.threads[0].kept.clone()), (met, vec![outer.clone()]));
    done(&mut net, &[0]);
    assert_eq!(bindings(&net), outer);
}
