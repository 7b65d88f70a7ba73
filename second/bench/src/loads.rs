//! Loading files at the limits.

use crate::nets::nested;
use crate::proved;
use crate::show::{beside, table};
use crate::sums::{with, with_net};
use crate::work::{best, Work};
use engine::{load, Net};
use std::hint::black_box;

const TURNS: u64 = 20;
const ROUNDS: usize = 1_000;

const COLUMNS: [&str; 5] = ["file", "records", "second `load`", "proved `load`", "ratio"];

pub fn section() -> String {
    let files = nested::files();
    let files = [("aliases, tables and rows", files.tables), ("nodes and starts", files.program)];
    let rows = table(1, &COLUMNS, files.map(|(name, file)| row(name, &file)));
    format!("Nanoseconds a load, the best of {ROUNDS} rounds of {TURNS} loads.\n\n{rows}")
}

fn row(name: &str, file: &[u8]) -> Vec<String> {
    let [second, proved] = times(file);
    let names = vec![name.to_string(), (file.len() / 104).to_string()];
    [names, beside(second, proved)].concat()
}

/// The proved code sums over each net that it loads; the same sums over one load are taken off.
fn times(file: &[u8]) -> [Option<f64>; 2] {
    let second = Work::new("second load", TURNS, TURNS, || {
        (0..TURNS).filter(|_| black_box(load(black_box(file))).is_ok()).count() as u64
    });
    let (net, _) = load(file).expect("a file that loads");
    let expected = (0..=TURNS).fold(0, |sum, _| with_loaded(sum, &net));
    let proved = proved::LINKED.then(|| {
        Work::new("load", TURNS, expected, || proved::loads(file, TURNS + 1))
            .without(|| proved::loaded(file, TURNS + 1))
    });
    best(ROUNDS, [Some(second), proved])
}

/// The sum with a net that was loaded.
fn with_loaded(sum: u64, net: &Net) -> u64 {
    let sum = with_net(with(sum, 0), net);
    net.nodes.iter().fold(sum, |sum, node| with(sum, u64::from(node.next.unwrap_or(255))))
}
