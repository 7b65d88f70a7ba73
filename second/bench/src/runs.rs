//! Whole runs over lists of picks, soundness tested once.

use crate::nets::{mixed, nested, Files};
use crate::proved::{self, Proved};
use crate::show::{beside, ratio, table, time};
use crate::sums::with;
use crate::work::{best, Work};
use crate::{done, second};
use engine::Pick;

/// How many picks, how many runs in one measurement, and measurements of which the best counts.
const LISTS: [(usize, u64, usize); 3] = [(10, 20, 500), (1_000, 2, 200), (100_000, 1, 10)];

const COLUMNS: [&str; 7] =
    ["run", "picks in the list", "second `run`", "`run_bytes`", "ratio", "`run`", "ratio"];

pub fn section() -> String {
    let nets = [("loops around updates", nested::files()), ("all kinds", mixed::files())];
    let rows = nets.iter().flat_map(|(name, files)| rows(name, files));
    let rows = table(1, &COLUMNS, rows);
    format!("Nanoseconds a pick in whole runs, soundness tested once.\n\n{rows}")
}

fn rows(name: &str, files: &Files) -> Vec<Vec<String>> {
    let start = files.start();
    let longest = LISTS.iter().map(|(count, ..)| *count).max().unwrap_or(0);
    let picks = done::picks(&start, longest);
    let row = |(count, turns, rounds): (usize, u64, usize)| {
        let [second, bytes, run] = times(files, &picks[..count], turns, rounds);
        let names = vec![name.to_string(), count.to_string()];
        [names, beside(second, bytes), vec![time(run), ratio(run, second)]].concat()
    };
    LISTS.map(row).into()
}

/// Of the second engine, of `run_bytes` and of `run`. Runs of the proved code over no picks test
/// soundness too, so its time, measured by itself, is added again.
fn times(files: &Files, picks: &[Pick], turns: u64, rounds: usize) -> [Option<f64>; 3] {
    let units = turns * picks.len() as u64;
    let start = files.start();
    let expected = second::runs(&start, picks, turns);
    let second = Work::new("second run", units, expected, || second::runs(&start, picks, turns))
        .without(|| second::no_runs(&start, turns));
    let bytes = done::bytes(picks);
    let work = |name, run: fn(Proved, &[u8], u64) -> u64| {
        let (code, bytes) = (proved::on(files)?, &bytes);
        let work = Work::new(name, units, expected, move || run(code, bytes, turns));
        Some(work.without(move || run(code, &[], turns)))
    };
    let tests = proved::on(files).map(|code| {
        let sound = (0..turns).fold(0, |sum, _| with(sum, 1));
        Work::new("sound_net", units, sound, move || code.tests(turns))
            .without(move || code.tests(0))
    });
    let works = [
        Some(second),
        work("run_bytes", |code, picks, turns| code.bytes(picks, turns)),
        work("run", |code, picks, turns| code.runs(picks, turns)),
        tests,
    ];
    let [second, bytes, run, tests] = best(rounds, works);
    let tested = |time: Option<f64>| time.zip(tests).map(|(time, test)| time + test);
    [second, tested(bytes), tested(run)]
}
