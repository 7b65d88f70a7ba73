//! Check 9: nexts and bodies stand below their own step, and what is named is there.

use super::{records, At, Faults, Words};
use crate::item::{Item, Next, Statement, Target};
use crate::labels::{Labels, END};
use crate::token::in_quotes;
use engine::number;

/// What a target is to the statement that names it.
#[derive(Clone, Copy, PartialEq, Eq)]
enum Role {
    Next,
    Body,
    Start,
}

pub fn check(statements: &[Statement], labels: &Labels, faults: &mut Faults) {
    let mut node = 0;
    for (at, statement) in records(statements) {
        let links = Links { at, node, labels };
        match &statement.item {
            Item::Step(step) => {
                if let Next::To(target) = &step.next {
                    links.check(Role::Next, target, faults);
                }
                if let Some(body) = &step.body {
                    links.check(Role::Body, body, faults);
                }
            }
            Item::Start { node, .. } => links.check(Role::Start, node, faults),
            _ => {}
        }
        node += usize::from(statement.item.is_step());
    }
}

/// A statement that names others; the number is its own if it is a step.
struct Links<'a> {
    at: At,
    node: usize,
    labels: &'a Labels,
}

impl Links<'_> {
    fn check(&self, role: Role, target: &Target, faults: &mut Faults) {
        let Some((named, line)) = self.named(target) else {
            return;
        };
        if role == Role::Next && named == usize::from(END) {
            return;
        }
        if named >= self.labels.nodes {
            faults.add(number::NO_NODE, self.at, || self.missing(role, named));
        } else if role != Role::Start && named <= self.node {
            let shown = shown(target, line);
            faults.add(number::NO_NODE, self.at, || self.above(role, named, &shown));
        }
    }

    /// The node that is named, and the line of its label. A label that is none breaks the grammar.
    fn named(&self, target: &Target) -> Option<(usize, Option<usize>)> {
        match target {
            Target::Node(number) => Some((usize::from(*number), None)),
            Target::Label(label, _) => {
                self.labels.node(label).map(|(node, place)| (node, Some(place.line)))
            }
        }
    }

    fn above(&self, role: Role, named: usize, shown: &str) -> Words {
        let wrong = match (role, named == self.node) {
            (Role::Body, true) => format!("the body {shown} is its loop itself"),
            (Role::Body, false) => format!("the body {shown} stands above its loop"),
            (_, true) => format!("the next {shown} is its own step"),
            (_, false) => format!("the next {shown} stands above its own step"),
        };
        // A process can't be moved below a step of its own.
        let own_process = self.labels.process(named) == self.labels.process(self.node);
        let line = self.at.place.line;
        let moved = match own_process {
            true => format!("name a step below line {line}"),
            false => format!("move the process below line {line}"),
        };
        let to_do = match role {
            Role::Body => moved,
            _ => format!("{moved}, or end with \"then end\"; only bodies of loops run again"),
        };
        (wrong, to_do)
    }

    fn missing(&self, role: Role, named: usize) -> Words {
        let what = match role {
            Role::Next => "the next",
            Role::Body => "the body",
            Role::Start => "what is started,",
        };
        let count = self.labels.nodes;
        let there = match count.checked_sub(1) {
            Some(last) => format!("the last step is node {last}"),
            None => "there are no steps".to_owned(),
        };
        let wrong = format!("{what} node {named} is not there: {there}");
        (wrong, "name a step by its label; numbers count from 0 through all processes".to_owned())
    }
}

/// A target as an error names it.
fn shown(target: &Target, line: Option<usize>) -> String {
    match (target, line) {
        (Target::Label(label, _), Some(line)) => format!("{} (line {line})", in_quotes(label)),
        (Target::Label(label, _), None) => in_quotes(label),
        (Target::Node(number), _) => format!("node {number}"),
    }
}
