//! What loading accepts and is hardly meant.

use crate::error::Error;
use crate::errors::Errors;
use crate::item::{Item, Next, Statement, Step, Target};
use crate::labels::Labels;
use crate::near::{did_you_mean, nearest};
use crate::print::name as shown_name;
use crate::token::{in_quotes, Place};
use engine::{Act, Address, Text};
use std::collections::{BTreeSet, HashSet};

/// In the order of their places.
pub fn warnings(statements: &[Statement], labels: &Labels) -> Errors {
    let mut warnings = Errors::default();
    if statements.is_empty() {
        warnings.add(|| empty("the text has no statement"));
    }
    unknown_tables(statements, &mut warnings);
    let links = Links { labels, steps: steps(statements) };
    links.bodies_that_come_next(&mut warnings);
    links.unreached(statements, &mut warnings);
    warnings.in_order();
    warnings
}

/// The warning of a file of no records.
pub fn no_record() -> Error {
    empty("the file has no record")
}

fn empty(wrong: &str) -> Error {
    let wrong = format!("warning: {wrong}, so the net is empty");
    Error::of_file(&wrong, "look whether this is the file that was meant")
}

fn warn(place: Place, wrong: &str, to_do: &str) -> Error {
    Error::at(place, format!("warning: {wrong}"), to_do)
}

/// The steps in the order of their numbers.
fn steps(statements: &[Statement]) -> Vec<(Place, &Step)> {
    let steps = statements.iter().filter_map(|statement| match &statement.item {
        Item::Step(step) => Some((statement.place, &**step)),
        _ => None,
    });
    steps.collect()
}

/// Tables that a step uses, and that are neither declared nor created under any name.
fn unknown_tables(statements: &[Statement], warnings: &mut Errors) {
    let mut known: HashSet<Text> = statements.iter().filter_map(makes).collect();
    let mut names: Vec<String> = known.iter().map(|name| shown_name(*name)).collect();
    names.sort_unstable();
    for (place, step) in steps(statements) {
        let Some(Address { name, .. }) = used(&step.act) else {
            continue;
        };
        if known.insert(name) {
            warnings.add(|| unknown_table(place, name, &names));
        }
    }
}

fn unknown_table(place: Place, name: Text, names: &[String]) -> Error {
    let name = shown_name(name);
    let meant = did_you_mean(nearest(&name, names.iter().map(String::as_str)));
    let wrong = format!("no table {name} is declared or created{meant}");
    warn(place, &wrong, "correct the name, declare the table or create it first")
}

/// The name of the table that a statement declares or creates.
fn makes(statement: &Statement) -> Option<Text> {
    match &statement.item {
        Item::Table { name, .. } => Some(*name),
        Item::Step(step) => match &step.act {
            Act::Create { at, .. } => Some(at.name),
            _ => None,
        },
        _ => None,
    }
}

/// The table that must be there for a step to be carried out.
fn used(act: &Act) -> Option<Address> {
    match act {
        Act::Insert { into, .. } | Act::InsertTable { into, .. } => Some(*into),
        Act::Delete { from, .. } | Act::Select { from, .. } => Some(*from),
        Act::Update { at, .. } | Act::Drop { at } => Some(*at),
        Act::Aggregate { over, .. } => Some(*over),
        Act::Create { .. } | Act::SelectVariable { .. } | Act::Loop(_) => None,
    }
}

struct Links<'a> {
    labels: &'a Labels,
    steps: Vec<(Place, &'a Step)>,
}

impl Links<'_> {
    fn node(&self, target: &Target) -> Option<usize> {
        match target {
            Target::Node(number) => Some(usize::from(*number)),
            Target::Label(label, _) => self.labels.node(label).map(|(node, _)| node),
        }
    }

    /// The node after this one, by `then` or as the step below in its process.
    fn next(&self, number: usize, step: &Step) -> Option<usize> {
        match &step.next {
            Next::End => None,
            Next::To(target) => self.node(target),
            Next::Below if self.labels.processes.contains_key(&(number + 1)) => None,
            Next::Below => Some(number + 1),
        }
    }

    fn bodies_that_come_next(&self, warnings: &mut Errors) {
        for (number, (place, step)) in self.steps.iter().enumerate() {
            let Some(body) = &step.body else {
                continue;
            };
            if self.node(body).is_some() && self.node(body) == self.next(number, step) {
                warnings.add(|| body_comes_next(*place, body));
            }
        }
    }

    /// Processes of which no step is started, or named by a step of another process.
    fn unreached(&self, statements: &[Statement], warnings: &mut Errors) {
        let started = statements.iter().filter_map(|statement| match &statement.item {
            Item::Start { node, .. } => self.node(node),
            _ => None,
        });
        let process = |node: usize| self.labels.process(node);
        let mut reached: BTreeSet<usize> = started.filter_map(process).collect();
        for (number, (_, step)) in self.steps.iter().enumerate() {
            let body = step.body.as_ref().and_then(|body| self.node(body));
            let named = self.next(number, step).into_iter().chain(body).filter_map(process);
            reached.extend(named.filter(|other| Some(*other) != process(number)));
        }
        for (first, place) in &self.labels.processes {
            if !reached.contains(first) {
                warnings
                    .add(|| unreached(*place, self.labels.first_of(*first).unwrap_or_default()));
            }
        }
    }
}

fn body_comes_next(place: Place, body: &Target) -> Error {
    let body = match body {
        Target::Label(label, _) => in_quotes(label),
        Target::Node(number) => format!("node {number}"),
    };
    let wrong = format!("{body} is this loop's body and also what comes after the loop");
    warn(place, &wrong, "make the body a process of its own, or end the loop with \"then end\"")
}

fn unreached(place: Place, label: &str) -> Error {
    let wrong = format!("nothing starts the process {} or leads to it", in_quotes(label));
    warn(place, &wrong, "start it, name it in a loop or after \"then\", or leave it out")
}
