//! Whole runs.

use crate::done::picks;
use crate::nets::{mixed, nested};
use engine::{run, sound, step_sound, Done, Net, Pick};
use std::collections::BTreeMap;

#[test]
fn every_pick_around_updates_is_done() {
    let start = nested::files().start();
    assert!(sound(&start));
    assert_eq!((start.nodes.len(), start.tables.len(), start.threads.len()), (128, 8, 8));
    let picks = picks(&start, 2_000);
    let answers = run(&mut start.clone(), &picks);
    let updates = answers.iter().filter(|answer| **answer == Ok(Done { added: 16, taken: 16 }));
    assert!(updates.count() > 1_800);
    assert!(answers.iter().all(|answer| answer.is_ok()));
}

/// The kind of the node that a pick meets.
fn kind(net: &Net, pick: Pick) -> u8 {
    let stack = &net.threads[usize::from(pick.thread)].stack;
    let top = stack[stack.len() - 1];
    net.nodes[usize::from(top.node())].act.kind()
}

#[test]
fn every_pick_of_all_kinds_is_done_and_each_kind_has_an_eleventh() {
    const COUNT: usize = 100_000;
    let mut net = mixed::files().start();
    let picks = picks(&net, COUNT);
    let mut counts = BTreeMap::new();
    let mut forks = 0;
    for pick in picks {
        *counts.entry(kind(&net, pick)).or_insert(0) += 1;
        forks += usize::from(pick.thread == 7);
        step_sound(&mut net, pick).expect("a pick that is done");
    }
    assert!(counts.keys().copied().eq(16..=26));
    for (kind, count) in counts {
        // Of sequential loops a little more: the loops around all else.
        assert!((9_000..9_900).contains(&count), "kind {kind}: {count} of {COUNT}");
    }
    assert!((9_000..9_900).contains(&forks), "forks: {forks} of {COUNT}");
}

/// 6 loops are opened first; then a round of the innermost has 132 picks and one that opens it.
#[test]
fn a_round_of_all_kinds_leaves_the_tables_as_they_were() {
    let mut net = mixed::files().start();
    assert!(sound(&net));
    assert_eq!((net.nodes.len(), net.tables.len(), net.threads.len()), (128, 7, 7));
    let tables = net.tables.clone();
    let mut highest = 0;
    for pick in picks(&net, 6 + 132) {
        step_sound(&mut net, pick).expect("a pick that is done");
        highest = highest.max(net.threads[0].stack.len());
    }
    assert_eq!(net.tables, tables);
    assert_eq!((highest, net.threads[0].stack.len()), (8, 6));
}
