//! Operands as a node holds them.

use crate::list::List;
use crate::net::VARIABLES;
use crate::value::Value;

#[derive(Clone, Copy, PartialEq, Eq, Debug)]
pub enum Operand {
    Constant(Value),
    Variable(u8),
    Plus(u8, i32),
    Formal(u8),
}

/// A template or a tuple.
pub type Operands = List<Operand, 4>;

impl Default for Operand {
    fn default() -> Self {
        Operand::Constant(Value::default())
    }
}

impl Operand {
    pub fn in_range(self) -> bool {
        match self {
            Operand::Constant(value) => value.in_range(),
            Operand::Variable(v) | Operand::Plus(v, _) | Operand::Formal(v) => v < VARIABLES,
        }
    }

    pub fn is_formal(self) -> bool {
        matches!(self, Operand::Formal(_))
    }

    pub fn is_sum(self) -> bool {
        matches!(self, Operand::Plus(..))
    }
}

/// The column that a formal of the template takes this variable from.
pub fn formal_column(template: &[Operand], variable: u8) -> Option<u8> {
    let column = template.iter().position(|operand| *operand == Operand::Formal(variable));
    column.map(|column| column as u8)
}
