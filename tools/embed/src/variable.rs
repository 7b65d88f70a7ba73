//! What a variable of a thread holds.

use crate::Value;

/// Unbound, or bound to a value. A later library may bind values that are unknown here.
#[derive(Clone, Copy, PartialEq, Eq, Debug, Default)]
#[non_exhaustive]
pub enum Variable {
    #[default]
    Unbound,
    Known(Value),
    Unknown,
}

impl Variable {
    pub fn is_bound(self) -> bool {
        self != Variable::Unbound
    }

    /// An operand, of which tag 0 is unbound.
    pub(crate) fn read(operand: &[u8; 8]) -> Variable {
        match (operand[0], Value::read(operand)) {
            (0, _) => Variable::Unbound,
            (_, Some(value)) => Variable::Known(value),
            (_, None) => Variable::Unknown,
        }
    }
}
