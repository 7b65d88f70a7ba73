//! Rows that a template leaves at the first, second, third or fourth field, and rows that it matches.

use crate::by_kind::sound_steps;
use crate::nets::left_early::files;
use crate::show::{beside, table};
use engine::Pick;

/// As many rows as each pick looks at.
const ROWS: f64 = 16.0;

/// A line's name, and the place of T that fails.
type Case = (&'static str, Option<usize>);

const CASES: [Case; 5] = [
    ("the first fails", Some(0)),
    ("the second fails", Some(1)),
    ("the third fails", Some(2)),
    ("the fourth fails", Some(3)),
    ("none fails", None),
];

const COLUMNS: [&str; 6] = [
    "field",
    "second `step_sound`",
    "pick of `run_bytes`",
    "ratio",
    "second, less a row",
    "proved, less a row",
];

/// Where the fourth field fails all fields are looked at: what a row takes less than that is gained
/// by leaving it early.
pub fn section() -> String {
    let times = CASES.map(|(_, failing)| times(failing));
    let [_, _, _, whole, _] = times;
    let row = |((name, failing), [second, proved]): (Case, [Option<f64>; 2])| {
        let whole = failing.map_or([None, None], |_| whole);
        let gains = vec![gained(whole[0], second), gained(whole[1], proved)];
        [vec![name.to_string()], beside(second, proved), gains].concat()
    };
    let rows = table(1, &COLUMNS, CASES.into_iter().zip(times).map(row));
    let caption = "Nanoseconds a pick over 16 equal rows, each left at the field of T that fails";
    format!("{caption}; the last columns, nanoseconds a row less than at the fourth.\n\n{rows}")
}

fn times(failing: Option<usize>) -> [Option<f64>; 2] {
    let picks = vec![Pick { thread: 0, row: 0 }; 126];
    sound_steps(&files(failing), &picks)
}

fn gained(whole: Option<f64>, time: Option<f64>) -> String {
    whole.zip(time).map_or("-".into(), |(whole, time)| format!("{:.1}", (whole - time) / ROWS))
}
