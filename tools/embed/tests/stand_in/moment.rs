//! A moment's bytes, made from a net of the second engine.

use engine::{Act, Bindings, Entry, Loop, Net, Relation, Thread, Value};

type Record = [u8; 104];

pub fn bytes(net: &Net) -> Vec<u8> {
    let mut records: Vec<Record> = super::written(net).as_chunks().0.to_vec();
    records.extend(net.threads.iter().flat_map(|one| thread(one, net)));
    let count = (1 + records.len() as u32).to_le_bytes();
    let mut first = record(&[64, net.tables.len() as u8, net.threads.len() as u8]);
    first[4..8].copy_from_slice(&count);
    [vec![first], records].concat().concat()
}

fn record(head: &[u8]) -> Record {
    let mut record = [0; 104];
    record[..head.len()].copy_from_slice(head);
    record
}

fn thread(thread: &Thread, net: &Net) -> Vec<Record> {
    let mut records = vec![record(&[65, thread.site.0, thread.stack.len() as u8])];
    records.extend(bindings(&thread.bindings()));
    // The top comes first, and so does what its entries keep.
    let mut kept = thread.kept.iter().rev();
    for top in thread.stack.iter().rev() {
        records.push(entry(*top));
        let held = kept.by_ref().take(usize::from(is_sequential(*top, net)));
        records.extend(held.flat_map(bindings));
    }
    records
}

/// Whether this is a sequential loop's entry: only such a one keeps bindings.
fn is_sequential(entry: Entry, net: &Net) -> bool {
    let act = &net.nodes[usize::from(entry.node())].act;
    let sequential = matches!(act, Act::Loop(Loop { parallel: false, .. }));
    matches!(entry, Entry::Loop { .. }) && sequential
}

fn bindings(bound: &Bindings) -> Vec<Record> {
    let variables = (0..).zip(&bound.variables).map(|(number, value)| variable(number, *value));
    let tables = (0..).zip(&bound.tables);
    let tables = tables.flat_map(|(number, table)| table_variable(number, table.as_ref()));
    variables.chain(tables).collect()
}

fn variable(number: u8, value: Option<Value>) -> Record {
    let mut record = record(&[66, number]);
    put(&mut record, value.as_slice());
    record
}

fn table_variable(number: u8, bound: Option<&Relation>) -> Vec<Record> {
    let Some(relation) = bound else {
        return vec![record(&[67, number])];
    };
    let mut head = record(&[67, number, 1]);
    head.iter_mut().skip(8).zip(relation.columns.iter()).for_each(|(at, kind)| *at = *kind as u8);
    let rows = relation.rows.iter().map(|row| {
        let mut record = record(&[68, number]);
        put(&mut record, row);
        record
    });
    [vec![head], rows.collect()].concat()
}

fn put(record: &mut Record, values: &[Value]) {
    for (value, operand) in values.iter().zip(record[56..].chunks_exact_mut(8)) {
        operand[0] = value.kind() as u8;
        operand[4..].copy_from_slice(&match value {
            Value::Int(int) => int.to_le_bytes(),
            Value::Text(text) => text.0,
            Value::Loc(locality) => [locality.0, 0, 0, 0],
        });
    }
}

fn entry(entry: Entry) -> Record {
    match entry {
        Entry::Run(node) => record(&[69, 0, node]),
        Entry::Loop { node, left } => {
            let mut record = record(&[69, 1, node]);
            left.iter().for_each(|place| record[8 + usize::from(place)] = 1);
            record
        }
    }
}
