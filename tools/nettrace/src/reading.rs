//! What operands come to.

use crate::moment::{Variable, Variables};
use crate::words::UNKNOWN_VALUE;
use engine::{Operand, Value};
use nettext::{operand as shown, value as shown_value};

/// The bindings that operands are read with: a thread's variables, over which the formals of a
/// template have the values of a row.
#[derive(Clone, Copy)]
pub struct Bindings<'a> {
    variables: &'a Variables,
    template: &'a [Operand],
    row: &'a [Value],
}

impl<'a> Bindings<'a> {
    /// The thread's own alone, as in L, T and T'.
    pub fn own(variables: &'a Variables) -> Bindings<'a> {
        Bindings { variables, template: &[], row: &[] }
    }

    /// With a row, as in the predicate and in t.
    pub fn with(self, template: &'a [Operand], row: &'a [Value]) -> Bindings<'a> {
        Bindings { template, row, ..self }
    }

    pub fn variable(&self, variable: u8) -> Variable {
        let column = self.template.iter().position(|field| *field == Operand::Formal(variable));
        let of_row = column.and_then(|column| self.row.get(column)).copied();
        let own = self.variables.get(usize::from(variable)).copied();
        of_row.map(Variable::Known).or(own).unwrap_or(Variable::Unbound)
    }

    fn known(&self, variable: u8) -> Option<Value> {
        match self.variable(variable) {
            Variable::Known(value) => Some(value),
            _ => None,
        }
    }

    pub fn value(&self, operand: Operand) -> Option<Value> {
        match operand {
            Operand::Constant(value) => Some(value),
            Operand::Variable(variable) => self.known(variable),
            Operand::Plus(variable, more) => self.known(variable)?.plus(more),
            Operand::Formal(_) => None,
        }
    }

    /// Why an operand has no value.
    pub fn lack(&self, operand: Operand) -> String {
        let (Operand::Variable(variable) | Operand::Plus(variable, _)) = operand else {
            return format!("{} has no value", shown(operand));
        };
        match self.variable(variable) {
            Variable::Known(Value::Int(_)) => format!("{} is outside 32 bits", shown(operand)),
            Variable::Known(other) => format!("x{variable} is {}, no Int", shown_value(other)),
            Variable::Unknown => format!("x{variable} is {UNKNOWN_VALUE}"),
            Variable::Unbound => format!("x{variable} is unbound"),
        }
    }
}
