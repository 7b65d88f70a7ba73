//! Sums over answers, counts and nets. Crate `bench` has the same.

use engine::{Answer, Net, Relation, Row, Thread, Value};

/// The sum with one number more.
pub fn with(sum: u64, number: u64) -> u64 {
    sum % (1 << 32) * 31 + number
}

pub fn with_answer(sum: u64, answer: Answer) -> u64 {
    let number = match answer {
        Ok(done) => done.added * 32 + done.taken + 1,
        Err(number) => 1025 + usize::from(number),
    };
    with(sum, number as u64)
}

/// The sum with rows of tables and table variables, variables, and heights of stacks.
pub fn with_net(sum: u64, net: &Net) -> u64 {
    let tables = net.tables.iter().fold(sum, |sum, table| with_relation(sum, &table.relation));
    net.threads.iter().fold(tables, with_thread)
}

fn with_thread(sum: u64, thread: &Thread) -> u64 {
    let variables = thread.variables.iter().fold(sum, |sum, held| match held {
        Some(value) => with_value(sum, *value),
        None => with(sum, 0),
    });
    let relations = thread.tables.iter().flatten().fold(variables, with_relation);
    with(relations, thread.stack.len() as u64)
}

fn with_relation(sum: u64, relation: &Relation) -> u64 {
    relation.rows.iter().fold(with(sum, relation.rows.len() as u64), with_row)
}

fn with_row(sum: u64, row: &Row) -> u64 {
    row.iter().fold(sum, |sum, value| with_value(sum, *value))
}

fn with_value(sum: u64, value: Value) -> u64 {
    let (kind, number) = match value {
        Value::Int(int) => (1, u32::try_from(int).unwrap_or(0)),
        Value::Text(text) => (2, u32::from_be_bytes(text.0)),
        Value::Loc(locality) => (3, u32::from(locality.0)),
    };
    with(with(sum, kind), u64::from(number))
}
