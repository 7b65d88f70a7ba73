//! Chains of one kind of step each.

use crate::nets::kinds::{files, Kind, KINDS};
use crate::nets::Files;
use crate::show::{beside, table};
use crate::work::{best, Work};
use crate::{chain, done, proved, second};
use engine::{step, step_sound, Net, Pick};

const ROUNDS: usize = 400;
/// Chains in one measurement: of picks that each test soundness, and of picks that don't.
const TURNS: u64 = 4;
const SOUND_TURNS: u64 = 32;

const COLUMNS: [&str; 7] = [
    "kind",
    "second `step`",
    "proved `step`",
    "ratio",
    "second `step_sound`",
    "pick of `run_bytes`",
    "ratio",
];

pub fn section() -> String {
    let rows = table(1, &COLUMNS, KINDS.map(row));
    format!("Nanoseconds a pick by kind, the best of {ROUNDS} rounds.\n\n{rows}")
}

fn row(kind: Kind) -> Vec<String> {
    let chain = Chain::new(kind);
    chain.check_left();
    let [second, proved] = chain.steps();
    let [second_sound, proved_sound] = sound_steps(&chain.files, &chain.picks);
    let name = vec![kind.name.to_string()];
    [name, beside(second, proved), beside(second_sound, proved_sound)].concat()
}

struct Chain {
    kind: Kind,
    files: Files,
    start: Net,
    picks: Vec<Pick>,
}

impl Chain {
    fn new(kind: Kind) -> Chain {
        let files = files(kind);
        let start = files.start();
        let picks = chain::picks(kind);
        Chain { kind, files, start, picks }
    }

    fn check_left(&self) {
        let expected = second::left(&self.start, &self.picks);
        let left = proved::on(&self.files).map_or(expected, |code| code.left(self.kind.number));
        assert_eq!(left, expected, "{}: the nets left differ", self.kind.name);
    }

    /// Soundness tested at each pick. A call of the proved code loads the net first.
    fn steps(&self) -> [Option<f64>; 2] {
        let units = TURNS * self.picks.len() as u64;
        let chains = |picks| second::steps(&self.start, picks, TURNS, step);
        let expected = chains(&self.picks);
        let second = Work::new("second step", units, expected, move || chains(&self.picks))
            .without(move || chains(&[]));
        let proved = proved::on(&self.files).map(|code| {
            let chains = move |turns| code.steps(self.kind.number, turns);
            Work::new("proved step", units, expected, move || chains(TURNS))
                .without(move || chains(0))
        });
        best(ROUNDS, [Some(second), proved])
    }
}

/// A pick where soundness is tested before the picks alone, which runs over no picks do too.
pub fn sound_steps(files: &Files, picks: &[Pick]) -> [Option<f64>; 2] {
    let (start, bytes) = (files.start(), done::bytes(picks));
    let units = SOUND_TURNS * picks.len() as u64;
    let chains = |picks| second::steps(&start, picks, SOUND_TURNS, step_sound);
    let second = Work::new("second step_sound", units, chains(picks), || chains(picks))
        .without(|| chains(&[]));
    let proved = proved::on(files).map(|code| {
        let (left, bytes) = (second::runs(&start, picks, SOUND_TURNS), &bytes);
        Work::new("run_bytes", units, left, move || code.bytes(bytes, SOUND_TURNS))
            .without(move || code.bytes(&[], SOUND_TURNS))
    });
    best(ROUNDS, [Some(second), proved])
}
