//! Where threads stand after a pick, with the round that it opened or ended and what it bound.

use crate::bindings::Change;
use crate::moment::Thread;
use crate::rounds::came_back;
use crate::run::Turn;
use crate::scene::Scene;
use crate::steps::row_places;
use crate::threads::{Names, ThreadChange};
use engine::Act;
use nettext::row;

/// The threads' names around a pick.
pub struct Around<'a> {
    pub before: &'a Names,
    pub after: &'a Names,
}

pub fn progress(turn: &Turn, scene: &Scene, names: &Around) -> Vec<String> {
    let place = usize::from(turn.pick.thread);
    let picked = names.before.thread(place);
    let (before, after) = (&turn.before.threads, &turn.after.threads);
    match (ThreadChange::new(before.len(), after.len()), after.get(place), after.last()) {
        (ThreadChange::Forked, Some(now), Some(fork)) => {
            let fork = forked(fork, scene, &names.after.thread(before.len()), &picked);
            [vec![round(scene)], fork, vec![goes_on(&picked, now, scene)]].concat()
        }
        (ThreadChange::Stays, Some(now), _) => stays(now, scene, &picked),
        (ThreadChange::Ended, ..) => {
            let ends = picked + " ends" + &closed_up(names, place);
            no_round(scene).into_iter().chain([ends]).collect()
        }
        _ => Vec::new(),
    }
}

/// The thread stands where it stood, or goes on.
fn stays(now: &Thread, scene: &Scene, picked: &str) -> Vec<String> {
    let parts = &scene.parts;
    let (round, formals) = match now.stack.len() > scene.thread.stack.len() {
        true => (Some(round(scene)), parts.template),
        false => (no_round(scene), parts.result.as_slice()),
    };
    let bound = came_back(now, scene).unwrap_or_else(|| {
        let (before, after) = (&scene.thread.bound, &now.bound);
        Change { formals, table: parts.bound, before, after }.lines()
    });
    round.into_iter().chain(bound).chain([goes_on(picked, now, scene)]).collect()
}

fn goes_on(picked: &str, now: &Thread, scene: &Scene) -> String {
    format!("{picked} goes on: {}", scene.steps.stands(now))
}

fn forked(fork: &Thread, scene: &Scene, new: &str, parent: &str) -> Vec<String> {
    let heading = format!("{new} is new, a fork of {parent}: {}", scene.steps.stands(fork));
    let (formals, before, after) = (scene.parts.template, &scene.thread.bound, &fork.bound);
    let bound = Change { formals, table: None, before, after }.lines();
    [heading].into_iter().chain(bound.iter().map(|line| format!("    {line}"))).collect()
}

/// The row that a loop's round is about.
fn round(scene: &Scene) -> String {
    let place = scene.row;
    let (source, name) = scene.source().unzip();
    let values = source.and_then(|source| source.rows.get(usize::from(place)));
    let values = values.map_or(String::new(), |values| format!(": {}", row(values)));
    format!("a round with row {place} of {}{values}", name.unwrap_or_default())
}

/// A loop that opened no round is over.
fn no_round(scene: &Scene) -> Option<String> {
    let left = scene.left();
    matches!(scene.act, Act::Loop(_)).then(|| match left.is_empty() {
        true => "no round: no row is left to visit".to_owned(),
        false => format!("no round: of {} to visit none matches", row_places(left.iter())),
    })
}

/// Who has which place now that one thread has ended.
fn closed_up(names: &Around, place: usize) -> String {
    let moved = names.after.places_from(place);
    match moved.is_empty() {
        true => String::new(),
        false => format!("; now {}", moved.join(", ")),
    }
}
