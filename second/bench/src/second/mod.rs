//! The second engine on chains and on whole runs.

pub mod calls;

use crate::sums::{with, with_answer, with_net};
use engine::{run, sound, step_sound, Answer, Net, Pick};
use std::hint::black_box;

/// The sum over the answers of so many chains from the start, by a function for one pick.
pub fn steps(
    start: &Net,
    picks: &[Pick],
    turns: u64,
    step: impl Fn(&mut Net, Pick) -> Answer,
) -> u64 {
    (0..turns).fold(0, |sum, _| {
        let mut net = black_box(start.clone());
        picks.iter().fold(sum, |sum, pick| with_answer(sum, step(&mut net, *pick)))
    })
}

/// The sum over the answers of one chain and the net that it leaves.
pub fn left(start: &Net, picks: &[Pick]) -> u64 {
    let mut net = start.clone();
    let answers = run(&mut net, picks);
    with_net(answers.into_iter().fold(0, with_answer), &net)
}

/// So many runs from the start: the sum over their counts and the net that the last one left.
pub fn runs(start: &Net, picks: &[Pick], turns: u64) -> u64 {
    from_start(start, turns, |net| counted(net, picks))
}

/// What of the call above is no run.
pub fn no_runs(start: &Net, turns: u64) -> u64 {
    from_start(start, turns, |_| (0, 0))
}

fn from_start(start: &Net, turns: u64, run: impl Fn(&mut Net) -> (usize, usize)) -> u64 {
    let mut sum = 0;
    let mut left = start.clone();
    for _ in 0..turns {
        left = black_box(start.clone());
        let (added, taken) = run(&mut left);
        sum = with(with(sum, added as u64), taken as u64);
    }
    with_net(sum, &left)
}

/// One test of soundness, then each pick; the sums of the counts.
fn counted(net: &mut Net, picks: &[Pick]) -> (usize, usize) {
    if !sound(net) {
        return (0, 0);
    }
    let done = picks.iter().filter_map(|pick| step_sound(net, *pick).ok());
    done.fold((0, 0), |(added, taken), done| (added + done.added, taken + done.taken))
}
