//! Rounds of sequential and parallel loops.

use crate::kept::{bring_back_late, keep, keep_anew, keeps};
use crate::net::{Entry, Loop, Places, Thread, Variables, THREADS};
use crate::number;
use crate::operand::Operand;
use crate::pattern::Pattern;
use crate::quirk::{wrong, Quirk};
use crate::relation::Row;
use crate::value::Value;

/// Opens a round for the row place, or says that the loop is over: no row to visit matches.
pub fn open_round(
    threads: &mut Vec<Thread>,
    place: usize,
    looping: &Loop,
    row: u8,
) -> Result<bool, u8> {
    let count = threads.len();
    let thread = &mut threads[place];
    if wrong(Quirk::BackBeforeNextPick) {
        bring_back_late(thread, looping);
    }
    let pattern = Pattern::new(&looping.template, &thread.variables)?;
    if wrong(Quirk::BackAtNextPick) {
        bring_back_late(thread, looping);
    }
    let source = thread.table_variable(looping.read)?;
    pattern.suits(&source.columns)?;
    let (node, left) = match thread.stack[thread.stack.len() - 1] {
        Entry::Run(node) => (node, Places::below(source.rows.len())),
        Entry::Loop { node, left } => (node, left),
    };
    let full = if looping.parallel { count >= THREADS } else { thread.stack.is_full() };
    let ready = |place: u8| left.has(place) && pattern.matches(&source.rows[usize::from(place)]);
    let row = named_place(left, row);
    if !ready(row) {
        return match left.iter().any(ready) {
            true if full && wrong(Quirk::LimitFirst) => Err(number::LIMIT),
            true => Err(number::NOT_READY),
            false => Ok(false),
        };
    }
    if full {
        return Err(number::LIMIT);
    }
    let values = source.rows[usize::from(row)];
    let last = thread.stack.len() - 1;
    let first = matches!(thread.stack[last], Entry::Run(_));
    thread.stack[last] = Entry::Loop { node, left: left.without(row) };
    if first && keeps(looping) {
        keep(thread);
    }
    if looping.parallel {
        let fork = fork(thread, looping, &values);
        threads.push(fork);
    } else {
        descend(thread, looping, &values, first);
    }
    Ok(true)
}

/// Binds the formals of a sequential loop and puts its body on the stack.
fn descend(thread: &mut Thread, looping: &Loop, values: &Row, first: bool) {
    if wrong(Quirk::KeptAgain) {
        keep_anew(thread);
    }
    bind(&mut thread.variables, &looping.template, values);
    if wrong(Quirk::KeptEachRound) || first && wrong(Quirk::KeptWithFormals) {
        keep_anew(thread);
    }
    thread.stack.push(Entry::Run(looping.body));
}

/// A new thread at the same site, with the bindings, all variables and the body alone.
fn fork(thread: &mut Thread, looping: &Loop, values: &Row) -> Thread {
    if wrong(Quirk::ForkBindsParent) {
        bind(&mut thread.variables, &looping.template, values);
    }
    let mut fork = Thread::new(thread.site, looping.body);
    fork.variables = thread.variables;
    fork.tables = thread.tables;
    bind(&mut fork.variables, &looping.template, values);
    fork
}

fn bind(variables: &mut Variables, template: &[Operand], row: &[Value]) {
    for (operand, value) in template.iter().zip(row) {
        if let Operand::Formal(v) = operand {
            variables[usize::from(*v)] = Some(*value);
        }
    }
}

/// The place that a pick names: the row's own, not its place among those left.
fn named_place(left: Places, row: u8) -> u8 {
    if wrong(Quirk::PlaceAmongLeft) {
        return left.iter().nth(usize::from(row)).unwrap_or(u8::MAX);
    }
    row
}
