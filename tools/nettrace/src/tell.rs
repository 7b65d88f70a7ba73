//! A run as text: the net before it, each pick, the net after it.

use crate::bindings;
use crate::moment::{Moment, Thread};
use crate::outcome::outcome;
use crate::progress::Around;
use crate::rounds::to_come;
use crate::run::Turn;
use crate::scene::Scene;
use crate::steps::Steps;
use crate::threads::{Names, ThreadChange};
use crate::words::{self, counted, counts};
use embed::Answer;
use engine::Table;
use nettext::{columns, row};

/// Tells turn after turn, and keeps the names of the threads.
pub struct Teller {
    steps: Steps,
    names: Names,
}

impl Teller {
    /// The threads are those that the net starts with.
    pub fn new(steps: Steps, first: &Moment) -> Teller {
        Teller { steps, names: Names::new(first.threads.len()) }
    }

    /// A net with all that stands in it.
    pub fn moment(&self, heading: &str, moment: &Moment) -> String {
        let tables = moment.tables.iter().flat_map(table);
        let threads = moment.threads.iter().enumerate();
        let threads = threads.flat_map(|(place, thread)| self.thread_with_bindings(place, thread));
        let none = moment.threads.is_empty().then(|| "no thread stands".to_owned());
        part(heading, tables.chain(threads).chain(none))
    }

    fn thread_with_bindings(&self, place: usize, thread: &Thread) -> Vec<String> {
        let bound = bindings::all(&thread.bound).into_iter().chain(to_come(thread, &self.steps));
        let bound = bound.map(|line| format!("    {line}"));
        [self.thread(place, thread)].into_iter().chain(bound).collect()
    }

    fn thread(&self, place: usize, thread: &Thread) -> String {
        let (named, stands) = (self.names.thread(place), self.steps.stands(thread));
        format!("{named} at {}: {stands}", words::site(thread.site))
    }

    /// A pick: its thread as it stood, its step, and what came of it.
    pub fn turn(&mut self, turn: &Turn) -> String {
        let place = usize::from(turn.pick.thread);
        let mut after = self.names.clone();
        let change = ThreadChange::new(turn.before.threads.len(), turn.after.threads.len());
        after.follow(change, place);
        let scene = Scene::new(turn, &self.steps);
        let names = Around { before: &self.names, after: &after };
        let step = scene.as_ref().map(|scene| self.steps.text(scene.top.node()).to_owned());
        let lines = step.into_iter().chain(outcome(turn, scene.as_ref(), &names));
        let text = part(&self.heading(turn), lines);
        self.names = after;
        text
    }

    fn heading(&self, turn: &Turn) -> String {
        let (number, place) = (turn.place, usize::from(turn.pick.thread));
        match turn.before.threads.get(place) {
            Some(thread) => format!("pick {number}: {}", self.thread(place, thread)),
            None => format!("pick {number}: thread {place}, which is not there"),
        }
    }
}

/// A heading, its lines and a blank line.
fn part(heading: &str, lines: impl Iterator<Item = String>) -> String {
    let lines: String = lines.map(|line| format!("    {line}\n")).collect();
    format!("{heading}\n{lines}\n")
}

fn table(table: &Table) -> Vec<String> {
    let columns = columns(&table.relation.columns);
    let mut lines = vec![format!("table {} {columns}", words::table(table))];
    lines.extend(table.relation.rows.iter().map(|values| format!("    {}", row(values))));
    lines
}

/// The answers of all picks together.
pub fn total(answers: &[Answer]) -> String {
    let (mut done, mut added, mut taken) = (0, 0, 0);
    for answer in answers {
        if let Answer::Done { added: more, taken: less } = answer {
            (done, added, taken) = (done + 1, added + more, taken + less);
        }
    }
    let refused = answers.len() - done;
    format!("in all: {} done, {refused} refused; {}\n", counted(done, "pick"), counts(added, taken))
}
