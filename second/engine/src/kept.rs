//! What a round binds ends with the round: the bindings that a sequential loop's entry keeps from
//! the moment the loop was first met, and how they come back.

use crate::net::{Entry, Loop, Node, Thread, Variables};
use crate::operand::Operand;
use crate::quirk::{wrong, Quirk};

/// Whether the entries of a loop keep bindings. A parallel loop binds nothing in its own thread.
pub fn keeps(looping: &Loop) -> bool {
    !looping.parallel || wrong(Quirk::BackUnderForks)
}

/// Keeps what stands bound, for the loop that the top entry has just become an entry of.
pub fn keep(thread: &mut Thread) {
    thread.kept.push(thread.bindings());
}

/// The same in place of what that entry kept before.
pub fn keep_anew(thread: &mut Thread) {
    thread.kept.pop();
    keep(thread);
}

/// Takes the top entry off the stack, and with it what it keeps.
pub fn take_off(thread: &mut Thread, nodes: &[Node]) {
    if top_keeper(thread, nodes).is_some() {
        thread.kept.pop();
    }
    thread.stack.pop();
}

/// Brings back what the entry now on top keeps; one that keeps nothing changes nothing.
pub fn bring_back(thread: &mut Thread, nodes: &[Node]) {
    if let Some(looping) = top_keeper(thread, nodes) {
        restore(thread, looping);
    }
}

/// For wrong engines: the same at a later pick of a loop, not at the step that ended the round.
pub fn bring_back_late(thread: &mut Thread, looping: &Loop) {
    if keeps(looping) && matches!(thread.stack.last(), Some(Entry::Loop { .. })) {
        restore(thread, looping);
    }
}

/// The loop of the top entry, if that entry keeps bindings.
fn top_keeper<'net>(thread: &Thread, nodes: &'net [Node]) -> Option<&'net Loop> {
    thread.stack.last()?.looping(nodes).filter(|looping| keeps(looping))
}

/// What the topmost keeper keeps stays kept: it serves all rounds.
fn restore(thread: &mut Thread, looping: &Loop) {
    let Some(kept) = thread.kept.last() else {
        return;
    };
    if wrong(Quirk::BackFormals) {
        return restore_formals(&mut thread.variables, &kept.variables, looping);
    }
    thread.variables = kept.variables;
    if !wrong(Quirk::BackVariables) {
        thread.tables = kept.tables;
    }
}

fn restore_formals(variables: &mut Variables, kept: &Variables, looping: &Loop) {
    for operand in looping.template.iter() {
        if let Operand::Formal(v) = operand {
            variables[usize::from(*v)] = kept[usize::from(*v)];
        }
    }
}
