//! Moments read from records written by hand.

use super::*;
use crate::bindings::TABLE_VARIABLE;
use crate::Kind;

/// A record of zeros but for these bytes, from the first on, and an Int among its values.
fn record(head: &[u8], int: Option<i32>) -> Record {
    let mut record = [0; RECORD_BYTES];
    record[..head.len()].copy_from_slice(head);
    if let Some(int) = int {
        record[56] = 1;
        record[60..64].copy_from_slice(&int.to_le_bytes());
    }
    record
}

/// A moment with one table and one thread, and what follows the thread.
fn moment(parts: &[Record]) -> Vec<u8> {
    let count = 4 + parts.len() as u8;
    let head = [
        record(&[MOMENT, 1, 1, 0, count], None),
        record(&[TABLE, 3, 0, 0, b'C', b'A', b'R', b'D', 1], None),
        record(&[ROW, 3, 0, 0, b'C', b'A', b'R', b'D'], Some(-7)),
        record(&[THREAD, 5, 2], None),
    ];
    [&head, parts].concat().concat()
}

#[test]
fn what_a_thread_holds() {
    let bytes = moment(&[
        record(&[VARIABLE, 0], None),
        record(&[VARIABLE, 15], Some(38)),
        record(&[TABLE_VARIABLE, 0, 1, 0, 0, 0, 0, 0, 1], None),
        record(&[TABLE_VARIABLE_ROW, 0], Some(1)),
        record(&[TABLE_VARIABLE_ROW, 0], Some(1)),
        record(&[TABLE_VARIABLE, 1], None),
        record(&[ENTRY, 0, 9], None),
        record(&[ENTRY, 1, 4, 0, 0, 0, 0, 0, 0, 1, 0, 1], None),
    ]);
    let moments: Vec<Moment> = Moment::all(&bytes).collect();
    assert_eq!(moments.len(), 1);
    let thread = &moments[0].threads[0];
    assert_eq!((thread.site, thread.variables[0]), (5, Variable::Unbound));
    assert_eq!(thread.variables[15], Variable::Known(Value::Int(38)));
    let rows = vec![vec![Value::Int(1)]; 2];
    assert_eq!(thread.table_variables, [Some(Relation { columns: vec![Kind::Int], rows }), None]);
    assert_eq!(
        thread.stack,
        [Entry::Run { node: 9 }, Entry::Loop { node: 4, left: vec![1, 3], held: None }]
    );
    let table = &moments[0].tables[0];
    assert_eq!(
        (table.site, &table.name, &table.content.columns[..]),
        (3, b"CARD", &[Kind::Int][..])
    );
    assert_eq!(table.content.rows, [[Value::Int(-7)]]);
}

/// Bindings after a loop's entry are that entry's, and not the thread's or another entry's.
#[test]
fn what_an_entry_holds() {
    let bytes = moment(&[
        record(&[VARIABLE, 2], Some(1)),
        record(&[TABLE_VARIABLE, 1], None),
        record(&[ENTRY, 0, 9], None),
        record(&[ENTRY, 1, 4], None),
        record(&[VARIABLE, 2], Some(5)),
        record(&[VARIABLE, 3], None),
        record(&[TABLE_VARIABLE, 0], None),
        record(&[TABLE_VARIABLE, 1, 1, 0, 0, 0, 0, 0, 1], None),
        record(&[TABLE_VARIABLE_ROW, 1], Some(6)),
        record(&[ENTRY, 1, 3], None),
        record(&[VARIABLE, 2], None),
        record(&[ENTRY, 1, 2], None),
    ]);
    let (moment, _) = Moment::first(&bytes).expect("a moment");
    let thread = &moment.threads[0];
    assert_eq!(thread.variables[2], Variable::Known(Value::Int(1)));
    assert_eq!(thread.table_variables, [None, None]);
    let mut held = Bindings::default();
    held.variables[2] = Variable::Known(Value::Int(5));
    let rows = vec![vec![Value::Int(6)]];
    held.table_variables[1] = Some(Relation { columns: vec![Kind::Int], rows });
    let entry = |node, held: Option<Bindings>| {
        let held = held.map(Box::new);
        Entry::Loop { node, left: Vec::new(), held }
    };
    let nothing = Some(Bindings::default());
    let loops = [entry(4, Some(held)), entry(3, nothing), entry(2, None)];
    assert_eq!(thread.stack[0], Entry::Run { node: 9 });
    assert_eq!(thread.stack[1..], loops);
}

/// A later library adds kinds, also outside of moments, and bindings after a node to run.
#[test]
fn what_is_not_known_is_skipped() {
    let known = moment(&[record(&[VARIABLE, 2], Some(1)), record(&[ENTRY, 0, 9], None)]);
    let later = moment(&[
        record(&[70, 1], None),
        record(&[VARIABLE, 2], Some(1)),
        record(&[ENTRY, 0, 9], None),
        record(&[VARIABLE, 2], Some(5)),
        record(&[TABLE_VARIABLE, 0, 1, 0, 0, 0, 0, 0, 1], None),
        record(&[99], None),
    ]);
    let outside = record(&[70, 2], None).to_vec();
    let bytes = [&outside, &known, &outside, &outside, &later, &outside].map(|part| &part[..]);
    let moments: Vec<Moment> = Moment::all(&bytes.concat()).collect();
    assert_eq!(moments.len(), 2);
    assert_eq!(moments[0], moments[1]);
    let (_, length) = Moment::first(&bytes.concat()).expect("a moment");
    assert_eq!(length, RECORD_BYTES + known.len());
}

/// A later library has values of more kinds.
#[test]
fn a_value_that_is_not_known_is_bound() {
    let tagged = |number: u8, tag: u8| {
        let mut record = record(&[VARIABLE, number], Some(7));
        record[56] = tag;
        record
    };
    let bytes = moment(&[tagged(3, 4), tagged(4, 255), tagged(5, 1), tagged(6, 0)]);
    let (moment, _) = Moment::first(&bytes).expect("a moment");
    let variables = &moment.threads[0].variables[3..7];
    let known = Variable::Known(Value::Int(7));
    let expected = [Variable::Unknown, Variable::Unknown, known, Variable::Unbound];
    assert_eq!(variables, expected);
    assert_eq!(variables.iter().filter(|variable| variable.is_bound()).count(), 3);
}

#[test]
fn a_moment_that_is_cut_off_is_none() {
    let bytes = moment(&[]);
    assert_eq!(Moment::all(&bytes[..bytes.len() - 1]).count(), 0);
    assert_eq!(Moment::all(&[]).count(), 0);
}
