//! One pick, and a list of picks.

use crate::acts::Stage;
use crate::kept::{bring_back, take_off};
use crate::loops::open_round;
use crate::net::{Act, Entry, Net, Node, Pick, Thread};
use crate::number;
use crate::quirk::{wrong, Quirk};
use crate::sound::sound;

/// The rows that a done step added and took.
#[derive(Clone, Copy, PartialEq, Eq, Debug)]
pub struct Done {
    pub added: usize,
    pub taken: usize,
}

/// A refusal is its number and leaves the net as it was.
pub type Answer = Result<Done, u8>;

impl Done {
    pub const NOTHING: Done = Done { added: 0, taken: 0 };
}

/// Runs the top stack entry of the thread picked.
pub fn step(net: &mut Net, pick: Pick) -> Answer {
    if !sound(net) {
        return Err(number::UNSOUND);
    }
    step_sound(net, pick)
}

/// The same on a net known to be sound. A step leaves a sound net sound, so a caller that has
/// looked once need not look again.
pub fn step_sound(net: &mut Net, pick: Pick) -> Answer {
    let place = usize::from(pick.thread);
    let thread = net.threads.get(place).ok_or(number::NO_THREAD)?;
    let top = thread.stack[thread.stack.len() - 1];
    let node = &net.nodes[usize::from(top.node())];
    if let Act::Loop(looping) = &node.act {
        if open_round(&mut net.threads, place, looping, pick.row)? {
            return Ok(Done::NOTHING);
        }
    }
    let mut stage = Stage {
        aliases: &net.aliases,
        nodes: &net.nodes,
        tables: &mut net.tables,
        thread: &mut net.threads[place],
    };
    let done = stage.act(&node.act)?;
    advance(&mut net.threads, place, &net.nodes, node.next);
    Ok(done)
}

/// Goes to the node's next; without one the entry goes, and a thread with no entry goes too. An
/// entry that goes ends the round of a sequential loop directly below it.
fn advance(threads: &mut Vec<Thread>, place: usize, nodes: &[Node], next: Option<u8>) {
    let thread = &mut threads[place];
    let top = thread.stack.last().copied();
    take_off(thread, nodes);
    if next.is_none() && thread.stack.is_empty() {
        return remove(threads, place);
    }
    if ends_round(top, next) {
        bring_back(thread, nodes);
    }
    if let Some(node) = next {
        thread.stack.push(Entry::Run(node));
    }
}

/// Whether leaving the top entry ends a round: only where the entry goes, whatever it was.
fn ends_round(top: Option<Entry>, next: Option<u8>) -> bool {
    let late = wrong(Quirk::BackAtNextPick) || wrong(Quirk::BackBeforeNextPick);
    let looping = matches!(top, Some(Entry::Loop { .. })) && wrong(Quirk::BackAfterActions);
    match next {
        Some(_) => wrong(Quirk::BackEachStep),
        None => !late && !looping,
    }
}

fn remove(threads: &mut Vec<Thread>, place: usize) {
    if wrong(Quirk::SwapRemove) {
        threads.swap_remove(place);
    } else {
        threads.remove(place);
    }
}

/// Takes a list of picks, each on the net that the one before it left.
pub fn run(net: &mut Net, picks: &[Pick]) -> Vec<Answer> {
    if !sound(net) {
        return vec![Err(number::UNSOUND); picks.len()];
    }
    picks.iter().map(|pick| step_sound(net, *pick)).collect()
}
