//! What a step speaks of, whatever its kind.

use engine::{Act, Address, Filter, Loop, Operand, Predicate};

#[derive(Clone, Copy, Default)]
pub struct Parts<'a> {
    /// The table's name and the locality L.
    pub address: Option<&'a Address>,
    /// T.
    pub template: &'a [Operand],
    pub predicate: Option<Predicate>,
    /// t.
    pub tuple: &'a [Operand],
    /// T', what an aggregate's result must match.
    pub result: Option<Operand>,
    /// The table variable read.
    pub read: Option<u8>,
    /// The table variable bound.
    pub bound: Option<u8>,
}

impl<'a> Parts<'a> {
    pub fn of(act: &'a Act) -> Parts<'a> {
        let none = Parts::default();
        match act {
            Act::Insert { into, tuple } => Parts { address: Some(into), tuple, ..none },
            Act::InsertTable { into, read } => {
                Parts { address: Some(into), read: Some(*read), ..none }
            }
            Act::Delete { from, filter, bound } => {
                Parts { address: Some(from), bound: Some(*bound), ..none.with(filter) }
            }
            Act::Select { from, filter, tuple, bound } => {
                Parts { address: Some(from), tuple, bound: Some(*bound), ..none.with(filter) }
            }
            Act::SelectVariable { read, filter, tuple, bound } => {
                Parts { read: Some(*read), tuple, bound: Some(*bound), ..none.with(filter) }
            }
            Act::Update { at, filter, tuple } => {
                Parts { address: Some(at), tuple, ..none.with(filter) }
            }
            Act::Aggregate { over, filter, result, .. } => {
                Parts { address: Some(over), result: Some(*result), ..none.with(filter) }
            }
            Act::Create { at, .. } | Act::Drop { at } => Parts { address: Some(at), ..none },
            Act::Loop(Loop { read, template, .. }) => Parts { read: Some(*read), template, ..none },
        }
    }

    fn with(self, filter: &'a Filter) -> Parts<'a> {
        Parts { template: &filter.template, predicate: filter.predicate, ..self }
    }

    /// Whether T has a formal of this variable.
    pub fn has_formal(&self, variable: u8) -> bool {
        self.template.contains(&Operand::Formal(variable))
    }
}
