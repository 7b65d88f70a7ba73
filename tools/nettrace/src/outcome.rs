//! What came of a pick: the engine's answer, the rows, and the threads.

use crate::changes::{changes, Change, TableChange};
use crate::listing::Listing;
use crate::progress::{progress, Around};
use crate::refusal::case;
use crate::run::Turn;
use crate::scene::Scene;
use crate::threads::Names;
use crate::words::{self, counted, counts};
use embed::Answer;
use engine::Act;
use nettext::{columns, number, row};

pub fn outcome(turn: &Turn, scene: Option<&Scene>, names: &Around) -> Vec<String> {
    match (turn.answer, scene) {
        (Answer::Refused(number), scene) => refused(number, turn, scene, names.before),
        (Answer::Done { added, taken }, Some(scene)) => done(added, taken, turn, scene, names),
        (Answer::Done { added, taken }, None) => vec![format!("done: {}", counts(added, taken))],
    }
}

/// The number with its case, or else with what it means in any net.
fn refused(refusal: u8, turn: &Turn, scene: Option<&Scene>, names: &Names) -> Vec<String> {
    let entry = number(refusal);
    let wrong = entry.map(|entry| entry.wrong.to_owned());
    let mut lines = match case(refusal, turn, scene, names).or(wrong) {
        Some(why) => vec![format!("refused: {refusal}, {why}")],
        None => vec![format!("refused: {refusal}")],
    };
    lines.extend(entry.map(|entry| format!("what to do: {}", entry.advice)));
    if turn.before == turn.after {
        lines.push("tables and threads stay as they were".to_owned());
    }
    lines
}

fn done(added: u64, taken: u64, turn: &Turn, scene: &Scene, names: &Around) -> Vec<String> {
    let listing = Listing::new(turn, scene);
    let why = listing.as_ref().filter(|_| added + taken == 0);
    let why = why.and_then(|listing| no_change(scene.act, listing)).unwrap_or_default();
    let rows = match listing.filter(Listing::is_worth_telling) {
        Some(listing) => listing.lines(),
        None => changes(&turn.before.tables, &turn.after.tables).iter().flat_map(change).collect(),
    };
    let answer = format!("done: {}{why}", counts(added, taken));
    [vec![answer], rows, progress(turn, scene, names)].concat()
}

/// Why an update or a delete changed nothing.
fn no_change(act: &Act, listing: &Listing) -> Option<String> {
    match (act, listing.matched) {
        (Act::Update { .. } | Act::Delete { .. }, 0) => Some("; no row matched".to_owned()),
        (Act::Update { .. }, matched) => {
            Some(format!("; {} matched, but no new row fits", counted(matched, "row")))
        }
        _ => None,
    }
}

fn change(change: &Change) -> Vec<String> {
    let mut lines = vec![heading(change)];
    lines.extend(change.gone.iter().map(|gone| format!("    - {}", row(gone))));
    lines.extend(change.new.iter().map(|new| format!("    + {}", row(new))));
    lines
}

fn heading(change: &Change) -> String {
    let address = format!("table {}", words::table(change.table));
    let columns = columns(&change.table.relation.columns);
    match change.kind {
        TableChange::Created => format!("+ {address} {columns}"),
        TableChange::Dropped => format!("- {address} {columns}"),
        TableChange::Stays => address,
    }
}
