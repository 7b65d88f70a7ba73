//! Lists of picks that are all done.

use engine::{step_sound, Net, Pick};

/// So many picks from a net: of the last thread while a fork stands, else of the first; where a
/// loop has a round to open, of the first row that is left.
pub fn picks(start: &Net, count: usize) -> Vec<Pick> {
    let mut net = start.clone();
    (0..count).map(|_| next(&mut net, start.threads.len())).collect()
}

/// A refused pick changes nothing, so rows are tried one after the other.
fn next(net: &mut Net, threads: usize) -> Pick {
    let forked = net.threads.len() > threads;
    let thread = if forked { net.threads.len() - 1 } else { 0 } as u8;
    let picks = (0..16).map(|row| Pick { thread, row });
    picks.into_iter().find(|pick| step_sound(net, *pick).is_ok()).expect("a pick that is done")
}

/// A list of picks as both engines take it from other programs: two bytes each.
pub fn bytes(picks: &[Pick]) -> Vec<u8> {
    picks.iter().flat_map(|pick| [pick.thread, pick.row]).collect()
}
