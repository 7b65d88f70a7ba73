//! What a row was judged against: the fields of the template that are no formals, and the predicate.
//! This only puts in words what the engine did; a trace shows it where it agrees with the answer.

use crate::moment::Variables;
use crate::parts::Parts;
use crate::reading::Bindings;
use engine::{Operand, Predicate, Row, Test, Value};
use nettext::value as shown;
use std::cmp::Ordering;

/// A row beside the tests that it met.
pub struct Judged {
    pub taken: bool,
    /// All tests where the row was taken, else the first that it fails.
    pub tests: String,
}

/// A test with the values in it.
struct Tested {
    holds: bool,
    text: String,
}

pub fn judge(parts: &Parts, variables: &Variables, row: &Row) -> Judged {
    let own = Bindings::own(variables);
    let fields = parts.template.iter().zip(row.iter());
    let fields = fields.filter(|(field, _)| !field.is_formal());
    let mut tests: Vec<Tested> = fields.map(|(field, value)| equal(*field, *value, own)).collect();
    let bindings = own.with(parts.template, row);
    tests.extend(parts.predicate.map(|predicate| satisfied(predicate, bindings)));
    match tests.iter().find(|tested| !tested.holds) {
        Some(failed) => Judged { taken: false, tests: failed.text.clone() },
        None => Judged { taken: true, tests: joined(&tests) },
    }
}

fn joined(tests: &[Tested]) -> String {
    tests.iter().map(|tested| tested.text.as_str()).collect::<Vec<_>>().join(", ")
}

/// A field of T that is no formal beside the row's value.
fn equal(field: Operand, value: Value, own: Bindings) -> Tested {
    match own.value(field) {
        Some(wanted) => tested(value, "=", wanted, wanted.matches(value)),
        None => Tested { holds: false, text: own.lack(field) },
    }
}

fn satisfied(predicate: Predicate, bindings: Bindings) -> Tested {
    let Predicate { test, left, right } = predicate;
    match (bindings.value(left), bindings.value(right)) {
        (Some(a), Some(b)) => tested(a, sign(test), b, holds(test, a.order(b))),
        (None, _) => Tested { holds: false, text: bindings.lack(left) },
        (_, None) => Tested { holds: false, text: bindings.lack(right) },
    }
}

fn tested(a: Value, sign: &str, b: Value, holds: bool) -> Tested {
    let not = if holds { "" } else { "not " };
    Tested { holds, text: format!("{not}{} {sign} {}", shown(a), shown(b)) }
}

/// Values of unlike kinds have no order, and satisfy no test.
fn holds(test: Test, order: Option<Ordering>) -> bool {
    order.is_some_and(|order| match test {
        Test::Equal => order.is_eq(),
        Test::Unequal => order.is_ne(),
        Test::Less => order.is_lt(),
        Test::AtMost => order.is_le(),
    })
}

fn sign(test: Test) -> &'static str {
    match test {
        Test::Equal => "=",
        Test::Unequal => "!=",
        Test::Less => "<",
        Test::AtMost => "<=",
    }
}
