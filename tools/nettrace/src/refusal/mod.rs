//! The case of a refusal: what in the net the engine's number speaks of. The number is the engine's;
//! where the net shows no case for it, none is told.

mod aggregate;
mod limit;
mod lookup;
mod misfit;
mod rounds;
mod unbound;

use crate::run::Turn;
use crate::scene::Scene;
use crate::threads::Names;

/// Why this pick was refused, in the words of its net.
pub fn case(number: u8, turn: &Turn, scene: Option<&Scene>, names: &Names) -> Option<String> {
    match (number, scene) {
        (11, None) => Some(no_thread(turn, names)),
        (12, Some(scene)) => unbound::case(scene),
        (13, Some(scene)) => lookup::no_site(scene),
        (14, Some(scene)) => lookup::no_table(scene),
        (15, Some(scene)) => lookup::table_there(scene),
        (16, Some(scene)) => misfit::case(scene),
        (17, Some(scene)) => rounds::held(scene),
        (18, Some(scene)) => aggregate::case(scene),
        (19, Some(scene)) => rounds::not_ready(scene),
        (20, Some(scene)) => limit::case(scene),
        _ => None,
    }
}

fn no_thread(turn: &Turn, names: &Names) -> String {
    let place = turn.pick.thread;
    match names.all().as_slice() {
        [] => format!("no thread has place {place}: none stands"),
        [only] => format!("no thread has place {place}: there is thread {only} alone"),
        all => format!("no thread has place {place}: there are threads {}", all.join(", ")),
    }
}
