//! The calls that other programs make: bytes in, bytes out, loading and all.

use crate::nets::{preparing, single};
use crate::show::{beside, ratio, table};
use crate::work::{best, Work};
use crate::{done, proved, second};
use engine::{load, run};

/// A call: a file and picks, and a buffer; how many bytes were put there.
type Call = fn(&[u8], &[u8], &mut [u8]) -> usize;

/// The second engine's, and the proved code's.
const CALLS: [(&str, [Call; 2]); 2] = [
    ("`tivgeral_answers`", [second::calls::answers, proved::calls::answers]),
    ("`tivgeral_tables`", [second::calls::tables, proved::calls::tables]),
];

/// How many picks, and measurements of which the best counts.
const LISTS: [(usize, usize); 3] = [(100, 5_000), (10_000, 50), (1_000_000, 5)];

const COLUMNS: [&str; 6] =
    ["call", "picks", "second", "proved", "ratio", "SQLite's update / proved"];

/// `update` is the time of SQLite's update.
pub fn section(update: Option<f64>) -> String {
    let longest = LISTS.iter().map(|(count, _)| *count).max().unwrap_or(0);
    let (file, picks) = (single::without_picks(), picks(longest));
    let each = |(name, calls)| {
        LISTS.map(|(count, rounds)| {
            let [second, proved] = times(calls, &file, &picks[..2 * count], rounds);
            let names = vec![String::from(name), count.to_string()];
            [names, beside(second, proved), vec![ratio(update, proved)]].concat()
        })
    };
    let rows = table(1, &COLUMNS, CALLS.into_iter().flat_map(each));
    format!("Nanoseconds a pick in calls on one file, loading included.\n\n{rows}")
}

/// So many picks that are all done, of which the first bind the table variable of each thread.
pub fn picks(count: usize) -> Vec<u8> {
    let (mut net, _) = load(&single::without_picks()).expect("a file that loads");
    let first = preparing();
    run(&mut net, &first);
    let others = done::picks(&net, count - first.len());
    done::bytes(&[first, others].concat())
}

fn times(calls: [Call; 2], file: &[u8], picks: &[u8], rounds: usize) -> [Option<f64>; 2] {
    let [second, proved] = calls;
    let proved = proved::LINKED.then_some(proved);
    // Enough for the tables at their limits and for an answer to each pick.
    let room = 14_144.max(12 * picks.len());
    let expected = put_out(second, file, picks, room);
    if let Some(proved) = proved {
        assert!(put_out(proved, file, picks, room) == expected, "the bytes put out differ");
    }
    let work = |name, call: Call| {
        let mut out = vec![0; room];
        let (units, length) = (picks.len() / 2, expected.len());
        Work::new(name, units as u64, length as u64, move || call(file, picks, &mut out) as u64)
    };
    best(rounds, [Some(work("second call", second)), proved.map(|call| work("proved call", call))])
}

fn put_out(call: Call, file: &[u8], picks: &[u8], room: usize) -> Vec<u8> {
    let mut out = vec![0; room];
    let length = call(file, picks, &mut out);
    out.truncate(length);
    out
}
