//! Streams of records for netwindow, with the width and the column to call it with.

pub mod examples;
mod refused;
mod sorts;
pub mod stats;

use crate::random::Random;
use crate::record::{file, row, Operand, Record, INT, SIZE, TEXT};
use crate::world::{columns, kind, name, value};
use refused::{changed, refused};

/// A stream and netwindow's arguments as they are written, which may be past 64 bits.
pub struct Stream {
    pub width: String,
    pub column: String,
    pub bytes: Vec<u8>,
}

/// Widths that are none: the nearest ones, and those that are good in their lowest bytes.
const NO_WIDTHS: [(usize, &str); 10] = [
    (10, "0"),
    (2, "00"),
    (10, "17"),
    (2, "18"),
    (2, "032"),
    (2, "256"),
    (2, "257"),
    (2, "4294967300"),
    (3, "18446744073709551619"),
    (3, "340282366920938463463374607431768211458"),
];

/// Columns that no row has.
const NO_COLUMNS: [(usize, &str); 6] = [
    (6, "4"),
    (2, "5"),
    (2, "256"),
    (1, "4294967296"),
    (2, "18446744073709551616"),
    (1, "340282366920938463463374607431768211457"),
];

/// The stream of a seed: the same on every run.
pub fn stream(seed: u64) -> Stream {
    let mut random = Random::new(seed);
    let (width, place) = (width(&mut random), random.below(4));
    let column = match random.chance(10) {
        true => random.weighted(&NO_COLUMNS).to_string(),
        false => padded(&mut random, place),
    };
    let most = random.weighted(&[(1, 0), (3, 8), (4, 30), (2, 60)]);
    let count = random.between(0, most);
    // Seeds that follow each other go through all bytes of a row, to change one by itself.
    let swept = (seed % SIZE as u64) as usize;
    let at = random.below(count.max(1));
    let mut source = Source::new(random, place);
    let mut records: Vec<Record> = source.by_ref().take(count).collect();
    if let Some(record) = records.get_mut(at) {
        let good = source.plan.good(&mut source.random);
        *record = changed(&mut source.random, good, swept);
    }
    let mut bytes = file(&records);
    bytes.extend(source.ragged_end());
    Stream { width, column, bytes }
}

/// The records of a stream without end: one in twenty is to be refused, all others are rows with an
/// Int in that column.
pub fn endless(seed: u64, column: usize) -> impl Iterator<Item = [u8; SIZE]> {
    let plan = Plan { column, edges: 50, refused: 5 };
    Source { random: Random::new(seed), plan }.map(|record| record.0)
}

fn width(random: &mut Random) -> String {
    let (low, high) = random.weighted(&[(2, (1, 1)), (5, (2, 5)), (4, (6, 15)), (2, (16, 16))]);
    match random.chance(15) {
        true => random.weighted(&NO_WIDTHS).to_string(),
        false => {
            let width = random.between(low, high);
            padded(random, width)
        }
    }
}

/// A number in decimal, now and then with zeros before it.
fn padded(random: &mut Random, number: usize) -> String {
    let places = random.weighted(&[(20, 1), (1, 2), (1, 30)]);
    format!("{number:0places$}")
}

/// Where the records of a stream come from.
struct Source {
    random: Random,
    plan: Plan,
}

/// What the records of a stream are like.
struct Plan {
    /// The column that good rows have an Int in.
    column: usize,
    /// The share of Ints at the edges of 32 bits, in percent.
    edges: usize,
    /// The share of records to be refused, in percent.
    refused: usize,
}

impl Source {
    fn new(mut random: Random, column: usize) -> Source {
        let edges = random.weighted(&[(3, 5), (4, 50), (2, 100)]);
        let refused = random.weighted(&[(1, 0), (5, 20), (3, 45), (1, 80)]);
        Source { random, plan: Plan { column, edges, refused } }
    }

    /// Some bytes after the last whole record, mostly such that with zeros they would be a row.
    fn ragged_end(&mut self) -> Vec<u8> {
        let random = &mut self.random;
        if !random.chance(30) {
            return Vec::new();
        }
        let length = random.weighted(&[(2, 1), (3, 88), (3, 103), (2, 0)]);
        let length = if length == 0 { random.between(1, SIZE - 1) } else { length };
        self.plan.good(random).0[..length].to_vec()
    }
}

impl Iterator for Source {
    type Item = Record;

    fn next(&mut self) -> Option<Record> {
        let random = &mut self.random;
        Some(match random.chance(self.plan.refused) {
            true => refused(random, &self.plan),
            false => self.plan.good(random),
        })
    }
}

impl Plan {
    fn good(&self, random: &mut Random) -> Record {
        self.row_with(random, INT)
    }

    /// A row with a value of that kind in the column, of any site, name, width and other kinds.
    fn row_with(&self, random: &mut Random, there: u8) -> Record {
        let mut columns = columns(random);
        while columns.len() <= self.column {
            columns.push(kind(random));
        }
        columns[self.column] = there;
        self.row_of(random, &columns)
    }

    /// A row that ends before the column. Every row has a first one, which is then a Text.
    fn short_row(&self, random: &mut Random) -> Record {
        if self.column == 0 {
            return self.row_with(random, TEXT);
        }
        let columns: Vec<u8> = (0..random.between(1, self.column)).map(|_| kind(random)).collect();
        self.row_of(random, &columns)
    }

    fn row_of(&self, random: &mut Random, columns: &[u8]) -> Record {
        let values: Vec<Operand> =
            columns.iter().map(|kind| value(random, *kind, self.edges)).collect();
        row(random.below(8) as u8, &name(random), &values)
    }
}
