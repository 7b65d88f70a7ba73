//! Labels and the nodes that they name.

use crate::error::Error;
use crate::errors::Errors;
use crate::item::{Next, Target};
use crate::names::Names;
use crate::near::{did_you_mean, nearest};
use crate::token::{in_quotes, Place};
use std::cmp::Reverse;
use std::collections::BTreeMap;

/// The byte that stands for no next node.
pub const END: u8 = 255;

#[derive(Default)]
pub struct Labels {
    named: BTreeMap<String, (usize, Place)>,
    /// The first node of each process, with the place where the process begins.
    pub processes: BTreeMap<usize, Place>,
    /// How many nodes the text has.
    pub nodes: usize,
    /// Whether a label may be missing here, since its statement breaks the grammar.
    pub lost: bool,
}

/// A target that has no byte: it is no label, or its node has too high a number.
pub struct NoByte<'a> {
    place: Place,
    name: &'a str,
    node: Option<usize>,
}

impl Labels {
    /// Gives a label to the node that comes next.
    pub fn name(&mut self, label: String, place: Place) -> Result<(), Error> {
        if let Some((_, earlier)) = self.named.get(&label) {
            let expected = format!("a new label: line {} has this one", earlier.line);
            return Err(Error::unexpected(
                place,
                &format!("{} again", in_quotes(&label)),
                &expected,
            ));
        }
        self.named.insert(label, (self.nodes, place));
        Ok(())
    }

    /// The node that comes next is the first of a process.
    pub fn begin_process(&mut self, place: Place) {
        self.processes.insert(self.nodes, place);
    }

    /// The first node of the process that a node belongs to.
    pub fn process(&self, node: usize) -> Option<usize> {
        self.processes.range(..=node).next_back().map(|(first, _)| *first)
    }

    /// The node of a label, and where the label stands.
    pub fn node(&self, label: &str) -> Option<(usize, Place)> {
        self.named.get(label).copied()
    }

    /// A target as its byte.
    pub fn target<'a>(&self, target: &'a Target) -> Result<u8, NoByte<'a>> {
        match target {
            Target::Node(number) => Ok(*number),
            Target::Label(label, place) => match self.named.get(label) {
                Some((node, _)) => byte(*node, *place, label),
                None => Err(NoByte { place: *place, name: label, node: None }),
            },
        }
    }

    /// Adds the error of a target that has no byte, unless its label may be a lost one.
    pub fn complain(&self, no_byte: &NoByte, errors: &mut Errors) {
        if no_byte.node.is_some() || !self.lost {
            errors.add(|| self.error(no_byte));
        }
    }

    fn error(&self, no_byte: &NoByte) -> Error {
        let NoByte { place, name, node } = *no_byte;
        if let Some(node) = node {
            let found = format!("{} as node {node}", in_quotes(name));
            return Error::unexpected(place, &found, "a node below 255");
        }
        let meant = nearest(name, self.named.keys().map(String::as_str)).map(in_quotes);
        let expected = format!("a label of this text{}", did_you_mean(meant.as_deref()));
        Error::unexpected(place, &in_quotes(name), &expected)
    }

    /// The first label of a node.
    pub fn first_of(&self, node: usize) -> Option<&str> {
        let labels = self.named.iter().filter(|(_, (named, _))| *named == node);
        labels.min_by_key(|(_, (_, place))| *place).map(|(label, _)| label.as_str())
    }

    /// The first label of each node that has one.
    pub fn names(&self) -> Names {
        let mut labels: Vec<_> = self.named.iter().collect();
        // The last one put in for a node stays.
        labels.sort_by_key(|(_, (_, place))| Reverse((place.line, place.column)));
        Names::Labels(labels.into_iter().map(|(label, (node, _))| (*node, label.clone())).collect())
    }

    /// The next byte of a node whose statement stands at `place`.
    pub fn next<'a>(&self, next: &'a Next, node: usize, place: Place) -> Result<u8, NoByte<'a>> {
        let below = node + 1;
        match next {
            Next::End => Ok(END),
            Next::To(target) => self.target(target),
            Next::Below if below == self.nodes || self.processes.contains_key(&below) => Ok(END),
            Next::Below => byte(below, place, "the step below"),
        }
    }
}

/// Node 255 can't be named, since that byte means the end.
fn byte(node: usize, place: Place, name: &str) -> Result<u8, NoByte<'_>> {
    let number = u8::try_from(node).ok().filter(|number| *number != END);
    number.ok_or(NoByte { place, name, node: Some(node) })
}
