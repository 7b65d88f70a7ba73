//! What a thread has bound, what a pick bound, and what came back.

use crate::moment::{Bound, Variable};
use crate::words::{counted, UNKNOWN_VALUE};
use engine::{Operand, Relation};
use nettext::{columns, row, value};

/// Everything that is bound.
pub fn all(bound: &Bound) -> Vec<String> {
    let variables = bound.variables.iter().enumerate();
    let tables = bound.tables.iter().enumerate();
    let mut lines: Vec<String> =
        variables.filter_map(|(number, bound)| variable(number, *bound)).collect();
    lines.extend(tables.flat_map(|(number, bound)| table_variable(number, bound.as_ref(), "")));
    lines
}

/// The bindings before and after a pick, with what it bound itself.
pub struct Change<'a> {
    /// The formals and the table variable that the step or the round binds.
    pub formals: &'a [Operand],
    pub table: Option<u8>,
    pub before: &'a Bound,
    pub after: &'a Bound,
}

impl<'a> Change<'a> {
    /// The variables bound, and whatever else is not as it was before.
    fn variables(&self) -> impl Iterator<Item = (usize, Variable)> + use<'_> {
        let after = self.after.variables.iter().copied().enumerate();
        after.filter(|(number, now)| {
            let formal = Operand::Formal(*number as u8);
            self.formals.contains(&formal) || self.before.variables[*number] != *now
        })
    }

    fn tables(&self) -> impl Iterator<Item = (usize, Option<&'a Relation>)> + use<'_, 'a> {
        let after = self.after.tables.iter().map(Option::as_ref).enumerate();
        after.filter(|(number, now)| {
            let named = self.table.map(usize::from) == Some(*number);
            named || self.before.tables[*number].as_ref() != *now
        })
    }

    pub fn lines(&self) -> Vec<String> {
        let variables = self.variables().filter_map(|(number, bound)| variable(number, bound));
        let tables = self.tables().flat_map(|(number, bound)| table_variable(number, bound, ""));
        variables.chain(tables).collect()
    }

    pub fn is_none(&self) -> bool {
        self.variables().next().is_none() && self.tables().next().is_none()
    }

    /// The same as what comes back when a round ends, after a heading.
    pub fn back(&self, heading: &str) -> Vec<String> {
        let values = self.variables().filter_map(|(number, bound)| value_again(number, bound));
        let unbound = self.variables().filter(|(_, bound)| *bound == Variable::Unbound);
        let unbound = unbound.map(|(number, _)| format!("x{number}"));
        let without = self.tables().filter(|(_, bound)| bound.is_none());
        let without = without.map(|(number, _)| format!("T{number}"));
        let clauses: Vec<String> =
            values.chain(unbound_again(&unbound.chain(without).collect::<Vec<_>>())).collect();
        let heading = match clauses.is_empty() {
            _ if self.is_none() => heading.to_owned(),
            true => format!("{heading}:"),
            false => format!("{heading}: {}", clauses.join(", ")),
        };
        let tables = self.tables();
        let tables = tables.flat_map(|(number, bound)| table_variable(number, bound, " again"));
        [heading].into_iter().chain(tables).collect()
    }
}

fn variable(number: usize, variable: Variable) -> Option<String> {
    match variable {
        Variable::Unbound => None,
        Variable::Known(known) => Some(format!("x{number} = {}", value(known))),
        Variable::Unknown => Some(format!("x{number} = {UNKNOWN_VALUE}")),
    }
}

fn value_again(number: usize, variable: Variable) -> Option<String> {
    match variable {
        Variable::Unbound => None,
        Variable::Known(known) => Some(format!("x{number} is {} again", value(known))),
        Variable::Unknown => Some(format!("x{number} is again {UNKNOWN_VALUE}")),
    }
}

fn unbound_again(names: &[String]) -> Option<String> {
    match names {
        [] => None,
        [name] => Some(format!("{name} is unbound again")),
        [names @ .., last] => Some(format!("{} and {last} are unbound again", names.join(", "))),
    }
}

/// The rows with their places, which picks name. The words stand behind what is said of them.
fn table_variable(number: usize, bound: Option<&Relation>, words: &str) -> Vec<String> {
    let Some(relation) = bound else {
        return Vec::new();
    };
    if relation.rows.is_empty() {
        return vec![format!("T{number} = no rows of {}{words}", columns(&relation.columns))];
    }
    let rows = relation.rows.iter().enumerate();
    let rows = rows.map(|(place, values)| format!("    {place}: {}", row(values)));
    let heading = format!("T{number} = {}{words}:", counted(relation.rows.len(), "row"));
    [heading].into_iter().chain(rows).collect()
}
