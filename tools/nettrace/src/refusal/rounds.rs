//! Numbers 17 and 19: the rows that loops have still to visit.

use crate::judging::judge;
use crate::scene::Scene;
use crate::steps::row_places;
use engine::{Act, Entry, Loop};

/// 17: which loop entries hold the table variable to be bound.
pub fn held(scene: &Scene) -> Option<String> {
    let bound = scene.parts.bound?;
    let holders = scene.thread.stack.iter().rev().filter(|entry| holds(scene, **entry, bound));
    let holders: Vec<String> = holders.map(|entry| scene.steps.entry(*entry)).collect();
    (!holders.is_empty())
        .then(|| format!("T{bound} is held by the loop at {}", holders.join(", and by that at ")))
}

/// Whether this is the entry of a loop over the table variable.
fn holds(scene: &Scene, entry: Entry, variable: u8) -> bool {
    match (entry, scene.steps.act(entry.node())) {
        (Entry::Loop { .. }, Some(Act::Loop(Loop { read, .. }))) => *read == variable,
        _ => false,
    }
}

/// 19: why the pick's row place is none to visit, and which would do.
pub fn not_ready(scene: &Scene) -> Option<String> {
    let (relation, name) = scene.source().filter(|_| matches!(scene.act, Act::Loop(_)))?;
    let left = scene.left();
    let judged = |place: u8| {
        let row = relation.rows.get(usize::from(place))?;
        Some(judge(&scene.parts, &scene.thread.bound.variables, row))
    };
    let ready = |place: &u8| judged(*place).is_some_and(|judged| judged.taken);
    let ready: Vec<u8> = left.iter().filter(ready).collect();
    let place = scene.row;
    let wrong = match judged(place) {
        None => format!("{name} has no row {place}"),
        Some(_) if !left.has(place) => format!("row {place} of {name} has had its round"),
        Some(judged) => format!("row {place} of {name} does not match ({})", judged.tests),
    };
    (!ready.is_empty() && !ready.contains(&place))
        .then(|| format!("{wrong}; {} would do", row_places(ready.into_iter())))
}
