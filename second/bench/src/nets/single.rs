//! Nets in one file, at its limit of 256 records.

use super::nested::Shape;
use super::parts::*;
use crate::done;
use engine::load;
use generate::record::{alias, file, pick, Record};

const RECORDS: usize = 256;

/// For calls, which get their picks beside the file: everything at its limit but for the nodes,
/// of which as many as there is room for; four loops around 51 updates.
pub fn without_picks() -> Vec<u8> {
    let shape = Shape { nodes: 56, loops: 4, last: 55, on_one_table: 7 };
    file(&[aliases(), tables(8, |_| 16), shape.nodes(), starts(8)].concat())
}

/// For programs, which run the picks of their file: 222 picks, and so one table and one thread;
/// two loops around twelve updates.
pub fn with_picks() -> Vec<u8> {
    let shape = Shape { nodes: 15, loops: 2, last: 14, on_one_table: 15 };
    let net = [vec![alias(0, 7, 0)], tables(1, |_| 16), shape.nodes(), starts(1)].concat();
    let (start, _) = load(&file(&net)).expect("a file that loads");
    let picks = done::picks(&start, RECORDS - net.len());
    let picks: Vec<Record> = picks.iter().map(|each| pick(each.thread, each.row)).collect();
    file(&[net, picks].concat())
}
