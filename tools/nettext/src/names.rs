//! What a text calls its nodes.

use std::collections::BTreeMap;

/// The names of nodes where steps are printed.
pub enum Names {
    /// Those of a dump: `n7` is node 7.
    Numbered,
    /// The labels of a text, each with its node; a node may have none.
    Labels(BTreeMap<usize, String>),
}

impl Names {
    /// The node as a loop's body or a start names it.
    pub fn target(&self, node: u8) -> String {
        match self {
            Names::Numbered => format!("n{node}"),
            Names::Labels(labels) => match labels.get(&usize::from(node)) {
                Some(label) => label.clone(),
                None => format!("node {node}"),
            },
        }
    }
}
