//! What a node reads of its thread's bindings.

use engine::{Act, Address, Filter, Operand};

/// The variables read; one that a formal of T binds for the row is not.
pub fn variables(act: &Act) -> Vec<u8> {
    match act {
        Act::Insert { into, tuple } => [own(&[into.locality]), own(tuple)].concat(),
        Act::InsertTable { into: at, .. } | Act::Create { at, .. } | Act::Drop { at } => {
            own(&[at.locality])
        }
        Act::Delete { from, filter, .. } => [own(&[from.locality]), filtered(filter, &[])].concat(),
        Act::Select { from: at, filter, tuple, .. } | Act::Update { at, filter, tuple } => {
            addressed(at, filter, tuple)
        }
        Act::SelectVariable { filter, tuple, .. } => filtered(filter, tuple),
        Act::Aggregate { over, filter, result, .. } => {
            [addressed(over, filter, &[]), own(&[*result])].concat()
        }
        Act::Loop(looping) => own(&looping.template),
    }
}

/// The table variable read, if any.
pub fn table(act: &Act) -> Option<u8> {
    match act {
        Act::InsertTable { read, .. } | Act::SelectVariable { read, .. } => Some(*read),
        Act::Loop(looping) => Some(looping.read),
        _ => None,
    }
}

fn addressed(at: &Address, filter: &Filter, tuple: &[Operand]) -> Vec<u8> {
    [own(&[at.locality]), filtered(filter, tuple)].concat()
}

fn filtered(filter: &Filter, tuple: &[Operand]) -> Vec<u8> {
    let sides = filter.predicate.map_or(Vec::new(), |it| own(&[it.left, it.right]));
    let mut under = [sides, own(tuple)].concat();
    under.retain(|v| !filter.template.contains(&Operand::Formal(*v)));
    [own(&filter.template), under].concat()
}

/// The variables that operands read.
fn own(operands: &[Operand]) -> Vec<u8> {
    let variable = |operand: &Operand| match operand {
        Operand::Variable(v) | Operand::Plus(v, _) => Some(*v),
        _ => None,
    };
    operands.iter().filter_map(variable).collect()
}
