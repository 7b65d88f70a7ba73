//! Number 18: what the aggregate met.

use crate::judging::judge;
use crate::scene::Scene;
use crate::words::counted;
use engine::{Act, Function, Operand, Row, Value};
use nettext::{operand, value};

/// The result over the rows that match, whole; none for a least or largest of no rows.
struct Outcome {
    name: &'static str,
    rows: usize,
    result: Option<i64>,
}

pub fn case(scene: &Scene) -> Option<String> {
    let Act::Aggregate { function, result, .. } = scene.act else {
        return None;
    };
    let (relation, source) = scene.source()?;
    let matches = |row: &&Row| judge(&scene.parts, &scene.thread.bound.variables, row).taken;
    let taken: Vec<&Row> = relation.rows.iter().filter(matches).collect();
    let Outcome { name, rows, result: found } = outcome(*function, &taken);
    let Some(found) = found else {
        return Some(format!("no row of {source} matches, so there is no {name}"));
    };
    let of = format!("the {name} over {} of {source} is {found}", counted(rows, "row"));
    match i32::try_from(found) {
        Err(_) => Some(format!("{of}, outside 32 bits")),
        Ok(int) => wanted(scene, *result, int).map(|wanted| format!("{of}, and {wanted}")),
    }
}

fn outcome(function: Function, taken: &[&Row]) -> Outcome {
    let rows = taken.len();
    let ints = |column: u8| {
        taken.iter().filter_map(move |row| match row.get(usize::from(column)) {
            Some(Value::Int(int)) => Some(i64::from(*int)),
            _ => None,
        })
    };
    match function {
        Function::Count => Outcome { name: "count", rows, result: Some(rows as i64) },
        Function::Sum(column) => Outcome { name: "sum", rows, result: Some(ints(column).sum()) },
        Function::Least(column) => Outcome { name: "least", rows, result: ints(column).min() },
        Function::Largest(column) => Outcome { name: "largest", rows, result: ints(column).max() },
    }
}

/// What T' asks for, where the result is something else.
fn wanted(scene: &Scene, result: Operand, found: i32) -> Option<String> {
    match scene.own().value(result) {
        _ if result.is_formal() => None,
        Some(wanted) if wanted.matches(Value::Int(found)) => None,
        Some(wanted) => Some(match result {
            Operand::Constant(_) => format!("giving asks for {}", value(wanted)),
            _ => format!("giving asks for {}, which is {}", operand(result), value(wanted)),
        }),
        None => Some(format!("giving has no value: {}", scene.own().lack(result))),
    }
}
