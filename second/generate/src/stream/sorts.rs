//! The sorts of streams, and of records with what a window makes of them.

use super::Stream;
use engine::window::{begin, Answer, Window};
use engine::{decimal, number};

/// A sort of thing, and whether a thing is of that sort.
pub type Sort<T> = (&'static str, fn(&T) -> bool);

/// A sort with the finer sorts in it.
pub type Group<T> = (Sort<T>, &'static [Sort<T>]);

/// A record with what it met and what came of it.
pub struct Taken {
    pub record: Vec<u8>,
    /// The number that loading gives the record by itself; 0 where it has nothing against it.
    pub fault: u8,
    /// The window before it.
    pub window: Window,
    /// The answer to the last good one before it.
    pub before: Option<Answer>,
    pub answer: Result<Answer, u8>,
}

pub const STREAMS: [Group<Stream>; 5] = [
    (
        ("stream, W from 1 to 16", |stream| begins(stream)),
        &[
            ("W 1", |stream| width(stream) == 1),
            ("W 16", |stream| width(stream) == 16),
            ("with zeros before it", |stream| stream.width.starts_with('0')),
        ],
    ),
    (
        ("stream, no 23", |stream| !begins(stream)),
        &[
            ("W 0", |stream| width(stream) == 0),
            ("W 17", |stream| width(stream) == 17),
            ("W above 17", |stream| (18..u64::MAX).contains(&width(stream))),
            ("W past 64 bits", |stream| width(stream) == u64::MAX),
        ],
    ),
    (
        ("stream, COLUMN up to 3", |stream| column(stream) < 4),
        &[
            ("COLUMN 0", |stream| column(stream) == 0),
            ("COLUMN 1", |stream| column(stream) == 1),
            ("COLUMN 2", |stream| column(stream) == 2),
            ("COLUMN 3", |stream| column(stream) == 3),
            ("with zeros before it", |stream| stream.column.len() > 1),
        ],
    ),
    (
        ("stream, COLUMN above 3", |stream| column(stream) > 3),
        &[
            ("COLUMN 4", |stream| column(stream) == 4),
            ("COLUMN above 4", |stream| (5..u64::MAX).contains(&column(stream))),
            ("COLUMN past 64 bits", |stream| column(stream) == u64::MAX),
        ],
    ),
    (("stream without a record", |stream| stream.bytes.is_empty()), &[]),
];

pub const RECORDS: [Group<Taken>; 9] = [
    (("no 24, length", |taken| taken.fault == number::LENGTH), &[]),
    (
        ("no 24, check 3", |taken| taken.fault == number::KIND),
        &[
            ("below the pick's kind", |taken| taken.record[0] < 33),
            ("above the pick's kind", |taken| taken.record[0] > 33),
        ],
    ),
    (
        ("no 24, check 4 of a row", |taken| kind(taken) == 3 && taken.fault == number::FIELD),
        &[
            ("the site", |taken| taken.record[1] > 7),
            ("the name", |taken| !readable(&taken.record[4..8])),
            ("bytes 2 and 3", |taken| taken.record[2..4] != [0; 2]),
            ("bytes 8 to 55", |taken| taken.record[8..56] != [0; 48]),
            ("bytes 88 to 103", |taken| taken.record[88..] != [0; 16]),
            ("a tag", |taken| values(taken).any(|value| value[0] > 3)),
            ("a gap", |taken| tags(taken).windows(2).any(|two| two[0] == 0 && two[1] != 0)),
            ("no values", |taken| tags(taken) == [0; 4]),
            ("bytes after a tag", |taken| values(taken).any(|value| value[1..4] != [0; 3])),
            ("a value of no tag", |taken| {
                values(taken).any(|value| value[0] == 0 && bits(value) > 0)
            }),
            ("a Text", |taken| values(taken).any(|value| value[0] == 2 && !readable(&value[4..]))),
            ("a Loc of 8", |taken| values(taken).any(|value| value[0] == 3 && bits(value) == 8)),
            ("a Loc above", |taken| values(taken).any(|value| value[0] == 3 && bits(value) > 8)),
        ],
    ),
    (("no 24, check 4 of another", |taken| kind(taken) != 3 && taken.fault == number::FIELD), &[]),
    (
        ("no 24, no row", |taken| is_other(taken)),
        &[
            ("alias", |taken| kind(taken) == 1),
            ("table", |taken| kind(taken) == 2),
            ("node", |taken| (16..=26).contains(&kind(taken))),
            ("start", |taken| kind(taken) == 32),
            ("pick", |taken| kind(taken) == 33),
        ],
    ),
    (
        ("no 24, no Int", |taken| is_row(taken) && taken.answer.is_err()),
        &[
            ("a Text there", |taken| tag_there(taken) == Some(2)),
            ("a Loc there", |taken| tag_there(taken) == Some(3)),
            ("no value there", |taken| tag_there(taken) == Some(0)),
            ("COLUMN above 3", |taken| tag_there(taken).is_none()),
        ],
    ),
    (("refused, window full", |taken| taken.answer.is_err() && is_full(taken)), &[]),
    (
        ("answer of fewer than W", |taken| {
            taken.answer.is_ok() && held(taken) < taken.window.width
        }),
        &[
            ("the first", |taken| held(taken) == 1),
            ("a sum above 32 bits", |taken| sum(taken) > i64::from(i32::MAX)),
            ("a sum below 32 bits", |taken| sum(taken) < i64::from(i32::MIN)),
        ],
    ),
    (
        ("answer of W", |taken| taken.answer.is_ok() && held(taken) == taken.window.width),
        &[
            ("just full", |taken| !is_full(taken)),
            ("a sum above 32 bits", |taken| sum(taken) > i64::from(i32::MAX)),
            ("a sum below 32 bits", |taken| sum(taken) < i64::from(i32::MIN)),
            ("the least leaves", |taken| both(taken, |old, new| new.least > old.least)),
            ("the largest leaves", |taken| both(taken, |old, new| new.largest < old.largest)),
            ("all Ints equal", |taken| both(taken, |_, new| new.least == new.largest)),
        ],
    ),
];

/// The numbers of the arguments.
pub fn width(stream: &Stream) -> u64 {
    decimal(stream.width.as_bytes()).expect("digits")
}

pub fn column(stream: &Stream) -> u64 {
    decimal(stream.column.as_bytes()).expect("digits")
}

fn begins(stream: &Stream) -> bool {
    begin(width(stream), column(stream)).is_ok()
}

fn kind(taken: &Taken) -> u8 {
    taken.record[0]
}

/// A good row by itself has no table to be in.
fn is_row(taken: &Taken) -> bool {
    taken.fault == number::MISFIT_ROW
}

/// A good record of another kind: by itself it is accepted, or names a node that isn't there.
fn is_other(taken: &Taken) -> bool {
    [0, number::NO_NODE].contains(&taken.fault)
}

fn values(taken: &Taken) -> impl Iterator<Item = &[u8; 8]> {
    taken.record[56..88].as_chunks().0.iter()
}

fn tags(taken: &Taken) -> Vec<u8> {
    values(taken).map(|value| value[0]).collect()
}

/// The tag in the window's column; none where no row has that column.
fn tag_there(taken: &Taken) -> Option<u8> {
    tags(taken).get(usize::try_from(taken.window.column).ok()?).copied()
}

fn bits(value: &[u8; 8]) -> u32 {
    let [.., a, b, c, d] = *value;
    u32::from_le_bytes([a, b, c, d])
}

fn readable(bytes: &[u8]) -> bool {
    bytes.iter().all(|byte| (0x20..=0x7E).contains(byte))
}

fn is_full(taken: &Taken) -> bool {
    taken.window.ints.len() as u64 == taken.window.width
}

/// How many rows the answer is about.
fn held(taken: &Taken) -> u64 {
    taken.window.width.min(taken.window.ints.len() as u64 + 1)
}

fn sum(taken: &Taken) -> i64 {
    taken.answer.map_or(0, |answer| answer.sum)
}

/// Whether this holds of the answer before and this one.
fn both(taken: &Taken, holds: fn(Answer, Answer) -> bool) -> bool {
    taken.before.zip(taken.answer.ok()).is_some_and(|(old, new)| holds(old, new))
}
