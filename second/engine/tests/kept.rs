//! What soundness says of the bindings that sequential loops' entries keep, on nets made by hand.

use engine::{
    load, sound, step, Bindings, Entry, Kind, Locality, Net, Pick, Places, Relation, Row, Text,
    Thread, Value,
};
use generate::record::*;

/// Loops over both table variables, of both kinds, and a step. No entry stands yet.
const OVER_0: u8 = 0;
const OVER_1: u8 = 1;
const FORKS_OVER_0: u8 = 2;
const FORKS_OVER_1: u8 = 3;
const STEP: u8 = 4;

fn ints(values: &[i32]) -> Option<Relation> {
    let rows = values.iter().map(|int| Row::from_iter([Value::Int(*int)])).collect();
    Some(Relation { columns: [Kind::Int].into_iter().collect(), rows })
}

/// A thread with these entries, the top last, that has both table variables bound to two rows, and
/// keeps just that for each sequential loop's entry.
fn net(stack: &[u8]) -> Net {
    let over = |kind, read| node(kind, END).body(STEP).read(read).template(&[formal(0)]);
    let records = [
        over(SEQUENTIAL, 0),
        over(SEQUENTIAL, 1),
        over(PARALLEL, 0),
        over(PARALLEL, 1),
        node(CREATE, END).name(b"NEW ").at(loc(0)).columns(&[INT]),
        start(0, STEP),
    ];
    let (mut net, _) = load(&file(&records)).expect("a good net");
    let entry = |node: &u8| match *node {
        STEP => Entry::Run(STEP),
        node => Entry::Loop { node, left: Places(0b10) },
    };
    let bindings = Bindings { tables: [ints(&[4, 5]), ints(&[6, 7])], ..Bindings::default() };
    let sequential = stack.iter().filter(|node| [OVER_0, OVER_1].contains(node)).count();
    let thread = &mut net.threads[0];
    thread.stack = stack.iter().map(entry).collect();
    thread.kept = vec![bindings.clone(); sequential];
    (thread.variables, thread.tables) = (bindings.variables, bindings.tables);
    assert!(sound(&net), "{stack:?}");
    net
}

fn changed(stack: &[u8], change: impl Fn(&mut Thread)) -> Net {
    let mut net = net(stack);
    change(&mut net.threads[0]);
    net
}

fn unsound(what: &str, stack: &[u8], change: impl Fn(&mut Thread)) {
    let mut net = changed(stack, change);
    assert!(!sound(&net), "{what}");
    let before = net.clone();
    assert_eq!(step(&mut net, Pick { thread: 0, row: 1 }), Err(10), "{what}");
    assert_eq!(net, before, "{what}");
}

fn still_sound(what: &str, stack: &[u8], change: impl Fn(&mut Thread)) {
    let mut net = changed(stack, change);
    assert!(sound(&net), "{what}");
    assert_ne!(step(&mut net, Pick { thread: 0, row: 1 }), Err(10), "{what}");
    assert!(sound(&net), "{what}, after a step");
}

const ROUND: [u8; 2] = [OVER_0, STEP];

#[test]
fn kept_bindings_have_the_ranges_of_a_threads_own() {
    unsound("a Loc out of range", &ROUND, |thread| {
        thread.kept[0].variables[3] = Some(Value::Loc(Locality(8)));
    });
    unsound("a Text out of range", &ROUND, |thread| {
        thread.kept[0].variables[15] = Some(Value::Text(Text(*b"abc\x7F")));
    });
    unsound("a table variable without columns", &ROUND, |thread| {
        thread.kept[0].tables[1] = Some(Relation::default());
    });
    unsound("a row of another kind", &ROUND, |thread| {
        thread.kept[0].tables[1].as_mut().expect("bound").columns[0] = Kind::Text;
    });
    unsound("a row too long", &ROUND, |thread| {
        let rows = &mut thread.kept[0].tables[1].as_mut().expect("bound").rows;
        rows[1].push(Value::Int(1));
    });
    unsound("a field out of range", &ROUND, |thread| {
        let columns = [Kind::Loc].into_iter().collect();
        let rows = [Row::from_iter([Value::Loc(Locality(9))])].into_iter().collect();
        thread.kept[0].tables[1] = Some(Relation { columns, rows });
    });
    still_sound("other variables within range", &ROUND, |thread| {
        thread.kept[0].variables[3] = Some(Value::Loc(Locality(7)));
        thread.variables[4] = Some(Value::Text(Text(*b"abc~")));
    });
}

/// A change of a table variable, and what it comes to.
type Change = (&'static str, fn(&mut Option<Relation>));

/// Ways for a table variable not to be bound alike, all within limits and ranges.
fn disagreements() -> Vec<Change> {
    vec![
        ("unbound", |kept| *kept = None),
        ("a row less", |kept| kept.as_mut().expect("bound").rows.pop()),
        ("a row more", |kept| kept.as_mut().expect("bound").rows.push(Row::from_iter([ONE]))),
        ("rows in another order", |kept| kept.as_mut().expect("bound").rows.reverse()),
        ("another row", |kept| kept.as_mut().expect("bound").rows[0][0] = ONE),
        ("other columns", |kept| {
            let texts = |_: &Row| Row::from_iter([Value::Text(Text(*b"a   "))]);
            let relation = kept.as_mut().expect("bound");
            relation.columns[0] = Kind::Text;
            relation.rows = relation.rows.iter().map(texts).collect();
        }),
    ]
}

const ONE: Value = Value::Int(1);

#[test]
fn kept_bindings_agree_on_the_entrys_own_table_variable() {
    for (what, change) in disagreements() {
        unsound(what, &ROUND, |thread| change(&mut thread.kept[0].tables[0]));
        unsound(what, &[OVER_1, STEP], |thread| change(&mut thread.kept[0].tables[1]));
        // Also where the loop is on top, between two rounds.
        unsound(what, &[OVER_0], |thread| change(&mut thread.kept[0].tables[0]));
    }
    unsound("other columns of no rows", &[OVER_0, STEP], |thread| {
        thread.stack[0] = Entry::Loop { node: OVER_0, left: Places(0) };
        thread.tables[0] = ints(&[]);
        thread.kept[0].tables[0] = ints(&[]);
        thread.kept[0].tables[0].as_mut().expect("bound").columns[0] = Kind::Loc;
    });
}

#[test]
fn kept_bindings_agree_on_what_entries_further_down_hold() {
    for (what, change) in disagreements() {
        for below in [OVER_0, FORKS_OVER_0] {
            let upper = usize::from(below == OVER_0);
            for stack in
                [&[below, OVER_1, STEP][..], &[below, STEP, STEP, OVER_1], &[STEP, below, OVER_1]]
            {
                unsound(what, stack, |thread| change(&mut thread.kept[upper].tables[0]));
            }
        }
    }
}

#[test]
fn kept_bindings_need_not_agree_on_anything_else() {
    for (what, change) in disagreements() {
        still_sound(what, &ROUND, |thread| change(&mut thread.kept[0].tables[1]));
        still_sound(what, &[OVER_0], |thread| change(&mut thread.kept[0].tables[1]));
        still_sound(what, &[OVER_0, OVER_0, STEP], |thread| {
            thread.kept.iter_mut().for_each(|kept| change(&mut kept.tables[1]));
        });
        // Entries above, of either kind, hold it for themselves alone.
        for above in [OVER_1, FORKS_OVER_1] {
            still_sound(what, &[OVER_0, above], |thread| change(&mut thread.kept[0].tables[1]));
        }
    }
}

/// In this engine they stand beside the stack, so that their number is to be judged too.
#[test]
fn each_sequential_loops_entry_keeps_bindings_and_no_other() {
    unsound("none kept", &ROUND, |thread| thread.kept.clear());
    unsound("one kept for two", &[OVER_0, OVER_1, STEP], |thread| thread.kept.truncate(1));
    let more = |thread: &mut Thread| thread.kept.push(thread.bindings());
    unsound("two kept for one", &ROUND, more);
    unsound("kept for a parallel loop", &[FORKS_OVER_0], more);
    unsound("kept for an entry to run", &[STEP], more);
}
