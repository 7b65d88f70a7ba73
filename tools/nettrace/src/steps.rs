//! The net's steps, and how a trace names them.

use crate::moment::Thread;
use crate::source::{Source, Step};
use engine::{Act, Aliases, Entry, Places};

pub struct Steps {
    steps: Vec<Step>,
    pub aliases: Aliases,
}

impl Steps {
    pub fn new(source: &Source) -> Steps {
        Steps { steps: source.steps(), aliases: source.aliases() }
    }

    fn step(&self, node: u8) -> Option<&Step> {
        self.steps.get(usize::from(node))
    }

    pub fn act(&self, node: u8) -> Option<&Act> {
        self.step(node).map(|step| &step.node.act)
    }

    /// The step as it is written.
    pub fn text(&self, node: u8) -> &str {
        self.step(node).map_or("", |step| &step.text)
    }

    /// Where the step is written.
    pub fn place(&self, node: u8) -> String {
        self.step(node).map_or_else(|| format!("node {node}"), |step| step.place.clone())
    }

    /// Where a thread stands: its top stack entry, and the loops whose rounds it is in.
    pub fn stands(&self, thread: &Thread) -> String {
        let entries: Vec<String> = thread.stack.iter().rev().map(|top| self.entry(*top)).collect();
        entries.join(", within ")
    }

    pub fn entry(&self, entry: Entry) -> String {
        let place = self.place(entry.node());
        match entry {
            Entry::Run(_) => place,
            Entry::Loop { left, .. } => format!("{place} with {}", to_visit(left)),
        }
    }
}

/// The rows that a loop has still to visit.
fn to_visit(left: Places) -> String {
    match left.is_empty() {
        true => "no row left to visit".to_owned(),
        false => format!("{} still to visit", row_places(left.iter())),
    }
}

/// So many places that follow each other are told by the first and the last.
const RUN: usize = 4;

/// One row place or more, in ascending order, for a sentence.
pub fn row_places(places: impl Iterator<Item = u8>) -> String {
    let places: Vec<u8> = places.collect();
    let runs = places.chunk_by(|place, next| place.checked_add(1) == Some(*next));
    let told: Vec<String> = runs.flat_map(run).collect();
    match places.len() {
        1 => format!("row {}", told.join(", ")),
        _ => format!("rows {}", told.join(", ")),
    }
}

fn run(places: &[u8]) -> Vec<String> {
    match places {
        [first, .., last] if places.len() >= RUN => vec![format!("{first} to {last}")],
        _ => places.iter().map(u8::to_string).collect(),
    }
}

#[cfg(test)]
mod tests {
    use super::*;

    #[test]
    fn runs_of_row_places() {
        for (places, told) in [
            (&[7][..], "row 7"),
            (&[0, 1, 2], "rows 0, 1, 2"),
            (&[0, 1, 2, 3], "rows 0 to 3"),
            (&[0, 2, 3, 4, 5, 7, 8, 10], "rows 0, 2 to 5, 7, 8, 10"),
            (&[252, 253, 254, 255], "rows 252 to 255"),
        ] {
            assert_eq!(row_places(places.iter().copied()), told);
        }
    }
}
