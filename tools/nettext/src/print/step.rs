//! A step of a process as text, without its next.

use super::operand::{address, columns, function, operand, operands, predicate};
use crate::names::Names;
use engine::{Act, Loop};

/// The names are those of loop bodies.
pub fn step(act: &Act, names: &Names) -> String {
    match act {
        Act::Insert { into, tuple } => format!("insert {} into {}", operands(tuple), address(into)),
        Act::InsertTable { into, read } => format!("insert table T{read} into {}", address(into)),
        Act::Delete { from, filter, bound } => format!(
            "delete {} from {}{} into T{bound}",
            operands(&filter.template),
            address(from),
            predicate(filter)
        ),
        Act::Select { from, filter, tuple, bound } => format!(
            "select {} from {} matching {}{} into T{bound}",
            operands(tuple),
            address(from),
            operands(&filter.template),
            predicate(filter)
        ),
        Act::SelectVariable { read, filter, tuple, bound } => format!(
            "select {} from T{read} matching {}{} into T{bound}",
            operands(tuple),
            operands(&filter.template),
            predicate(filter)
        ),
        Act::Update { at, filter, tuple } => format!(
            "update {} in {}{} to {}",
            operands(&filter.template),
            address(at),
            predicate(filter),
            operands(tuple)
        ),
        Act::Aggregate { over, filter, function: applied, result } => format!(
            "aggregate {} over {} in {}{} giving {}",
            function(*applied),
            operands(&filter.template),
            address(over),
            predicate(filter),
            operand(*result)
        ),
        Act::Create { at, columns: kinds } => format!("create {} {}", address(at), columns(kinds)),
        Act::Drop { at } => format!("drop {}", address(at)),
        Act::Loop(Loop { parallel, read, template, body }) => {
            let parallel = if *parallel { "parallel " } else { "" };
            let body = names.target(*body);
            format!("foreach {parallel}{} in T{read} do {body}", operands(template))
        }
    }
}
