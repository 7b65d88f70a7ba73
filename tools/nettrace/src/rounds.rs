//! The ends of rounds: what a loop's entry holds comes back.

use crate::bindings::Change;
use crate::moment::Thread;
use crate::scene::Scene;
use crate::steps::Steps;

/// Whether a thread has left the body of a loop.
pub fn ends_round(before: &Thread, after: &Thread) -> bool {
    after.stack.len() < before.stack.len()
}

/// What came back in a pick that ended a round. None where the thread does not have what the loop's
/// entry holds: then this is no such end.
pub fn came_back(now: &Thread, scene: &Scene) -> Option<Vec<String>> {
    let ends = ends_round(scene.thread, now);
    let held = now.held.last().filter(|_| ends)?.as_ref();
    held.filter(|held| **held == now.bound)?;
    let (formals, table) = (scene.parts.result.as_slice(), scene.parts.bound);
    let change = Change { formals, table, before: &scene.thread.bound, after: &now.bound };
    Some(change.back("the round ends"))
}

/// What is to come back to a thread at the end of each round that it is in, the innermost first.
pub fn to_come(thread: &Thread, steps: &Steps) -> Vec<String> {
    let entries = thread.stack.iter().zip(&thread.held).rev().skip(1);
    let loops = entries.filter_map(|(entry, held)| Some((entry, held.as_ref()?)));
    let changes = loops.map(|(entry, held)| {
        let change = Change { formals: &[], table: None, before: &thread.bound, after: held };
        (entry, change)
    });
    changes
        .filter(|(_, change)| !change.is_none())
        .flat_map(|(entry, change)| {
            let heading = format!("when the round of {} ends", steps.place(entry.node()));
            let mut lines = change.back(&heading);
            // The rows that come back are not those that the thread has now.
            lines.iter_mut().skip(1).for_each(|line| line.insert_str(0, "    "));
            lines
        })
        .collect()
}
