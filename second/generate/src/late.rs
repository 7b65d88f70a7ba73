//! Nodes that no start leads to, so that a run is what it is without them. Their templates fail far
//! into rows, or at sums with no value, which those of programs seldom do.

use crate::random::Random;
use crate::record::{formal, int, loc, node, plus, text, var, Operand, Record, DELETE, END};
use crate::world::value;
use engine::{Kind, Net, Relation, Value};

/// The most such nodes in a file, and the most nodes of all.
const MOST: usize = 8;
const ALL: usize = 128;

/// A variable that programs seldom bind.
const UNBOUND: u8 = 15;

/// One that begins with a sum, and a few for each table of three or four columns, as long as there
/// is room for more. The net is the one that the picks leave.
pub fn late(random: &mut Random, net: &Net, room: usize) -> Vec<Record> {
    let mut templates = vec![beginning_with_sum(random, net)];
    for table in &net.tables {
        for (length, failing) in shapes(table.relation.columns.len()) {
            templates.push(template(random, net, &table.relation, *length, *failing));
        }
    }
    templates.truncate(room.min(MOST).min(ALL - net.nodes.len()));
    let delete =
        |template: &Vec<Operand>| node(DELETE, END).name(b"CARD").at(loc(0)).template(template);
    templates.iter().map(delete).collect()
}

fn beginning_with_sum(random: &mut Random, net: &Net) -> Vec<Operand> {
    let rest = 1..random.between(1, 4) as u8;
    std::iter::once(sum(random, net)).chain(rest.map(formal)).collect()
}

/// The lengths of T and the places of the field that fails, for a table of so many columns: T as
/// long as its rows, and T a field shorter or longer.
fn shapes(columns: usize) -> &'static [(usize, usize)] {
    match columns {
        4 => &[(4, 4), (3, 3), (4, 4), (4, 4)],
        3 => &[(4, 3), (3, 3)],
        _ => &[],
    }
}

/// Formals, and here and there what a row has, up to the field that fails.
fn template(
    random: &mut Random,
    net: &Net,
    relation: &Relation,
    length: usize,
    failing: usize,
) -> Vec<Operand> {
    let sample = (!relation.rows.is_empty()).then(|| *random.choose(&relation.rows));
    (1..=length)
        .map(|field| match sample {
            _ if field == failing => unlike(random, net, relation.columns[field - 1] as u8),
            Some(row) if field < failing && random.chance(25) => constant(row[field - 1]),
            _ => formal(field as u8),
        })
        .collect()
}

/// An operand that few fields of this kind match.
fn unlike(random: &mut Random, net: &Net, kind: u8) -> Operand {
    match random.below(8) {
        0 => var(UNBOUND),
        1..4 => sum(random, net),
        4 => value(random, kind % 3 + 1, 50),
        _ => value(random, kind, 50),
    }
}

/// A sum that mostly has no value: of no Int, or past 32 bits.
fn sum(random: &mut Random, net: &Net) -> Operand {
    let variables = net.threads.iter().flat_map(|thread| (0..16).zip(thread.variables));
    let bound: Vec<(u8, Value)> = variables.filter_map(|(v, value)| Some((v, value?))).collect();
    if bound.is_empty() {
        return plus(UNBOUND, 1);
    }
    let unlike_int = bound.iter().find(|(_, value)| value.kind() != Kind::Int);
    let any = random.choose(&bound);
    match *unlike_int.filter(|_| random.chance(50)).unwrap_or(any) {
        (v, Value::Int(int)) if int > 0 => plus(v, i32::MAX),
        (v, Value::Int(_)) => plus(v, i32::MIN),
        (v, _) => plus(v, 1),
    }
}

fn constant(value: Value) -> Operand {
    match value {
        Value::Int(value) => int(value),
        Value::Text(value) => text(&value.0),
        Value::Loc(locality) => loc(locality.0),
    }
}
