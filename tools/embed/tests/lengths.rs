//! Lengths that no safe function gives: each has its number, and the buffer stays as it was.
#![cfg(feature = "proved")]

use embed::{picks, picks_into, trace, Call, Moment, Pick, Refused, MOMENT_BYTES};
use std::fs;

/// The calls that take picks and a buffer alone, but for the table to lay out.
const CALLS: [Call; 4] =
    [Call::Tables, Call::Answers, Call::Threads, Call::Page { site: 1, name: *b"CARD" }];

/// Number and place, for a buffer of so many bytes, which must stay as it was.
fn refused(call: Call, file: &[u8], picks: &[u8], room: usize) -> (u8, usize) {
    let mut out = vec![7; room];
    let given = call.on(file, picks, &mut out);
    assert!(out.iter().all(|byte| *byte == 7), "the buffer was touched");
    given
}

fn stored(name: &str) -> Vec<u8> {
    let examples = concat!(env!("CARGO_MANIFEST_DIR"), "/../../examples");
    fs::read(format!("{examples}/{name}.net")).expect("a stored example")
}

fn file() -> Vec<u8> {
    stored("update")
}

#[test]
fn picks_of_an_odd_length_are_100_before_all_else() {
    for call in CALLS {
        assert_eq!(refused(call, &file(), &[0, 0, 0], 20_000), (100, 0));
        assert_eq!(refused(call, &[1], &[0], 0), (100, 0));
    }
}

#[test]
fn a_file_of_a_broken_length_is_1() {
    for call in CALLS {
        assert_eq!(refused(call, &file()[1..], &[], 20_000), (1, file().len() / 104 - 1));
    }
}

/// The place is then the length that is needed.
#[test]
fn a_short_buffer_is_21() {
    // Two tables and two rows.
    assert_eq!(refused(Call::Tables, &file(), &[0, 0], 415), (21, 416));
    // An answer and a thread have 24 bytes.
    assert_eq!(refused(Call::Answers, &file(), &[0, 0], 23), (21, 24));
    assert_eq!(refused(Call::Threads, &file(), &[], 23), (21, 24));
}

/// A moment of one thread that holds nothing: its head, two tables, two rows, the thread with 16
/// variables, two table variables and one stack entry.
#[test]
fn a_buffer_too_short_for_a_moment_is_21() {
    let needed = 104 * (1 + 2 + 2 + 1 + 16 + 2 + 1);
    let mut out = vec![7; needed - 1];
    let refused = Err(Refused { number: 21, place: needed });
    assert_eq!(trace(&file(), &[], 0, &mut out), refused);
    assert!(out.iter().all(|byte| *byte == 7), "the buffer was touched");
    assert_eq!(trace(&file(), &[], 0, &mut vec![7; needed]), Ok(needed));
}

/// What an entry holds counts: two tables and two rows, then a thread within a round, whose loop
/// holds variables and table variables as the thread does, each with two rows in one of the tables.
#[test]
fn a_moment_within_a_round_has_what_the_loop_holds() {
    let file = stored("sequential-loop");
    let bindings = 16 + 2 + 2;
    let needed = 104 * (1 + 2 + 2 + 1 + bindings + 2 + bindings);
    let picks = [0, 1].map(|row| Pick { thread: 0, row });
    assert_eq!(trace(&file, &picks, 2, &mut []), Err(Refused { number: 21, place: needed }));
    assert_eq!(trace(&file, &picks, 2, &mut vec![7; needed]), Ok(needed));
}

/// The place tells of the first moment, however many come after it: here the net before a pick
/// that ends its thread.
#[test]
fn the_length_that_is_needed_is_that_of_the_first_moment() {
    let (file, pick) = (file(), Pick { thread: 0, row: 0 });
    let needed = |from| trace(&file, &[pick], from, &mut []).map_err(|refused| refused.place);
    let mut out = vec![0; 2 * MOMENT_BYTES];
    let put = trace(&file, &[pick], 0, &mut out).expect("a file that loads");
    let (_, first) = Moment::first(&out[..put]).expect("a moment");
    assert_eq!((needed(0), needed(1)), (Err(first), Err(put - first)));
    assert_eq!((Moment::all(&out[..put]).count(), needed(9)), (2, needed(1)));
}

/// A file of so many picks and nothing else.
fn picks_alone(count: usize) -> Vec<u8> {
    let record = |place: usize| {
        let mut record = [0; 104];
        record[..3].copy_from_slice(&[33, place as u8, 7]);
        record
    };
    (0..count).flat_map(record).collect()
}

/// What a call for picks comes to with a buffer of so many bytes, and the buffer.
fn picks_put(file: &[u8], room: usize) -> (Result<usize, Refused>, Vec<u8>) {
    let mut out = vec![9; room];
    (picks_into(file, &mut out), out)
}

#[test]
fn a_buffer_too_short_for_picks_is_21() {
    let (file, most) = (picks_alone(3), picks_alone(256));
    for room in 0..6 {
        let refused = Err(Refused { number: 21, place: 6 });
        assert_eq!(picks_put(&file, room), (refused, vec![9; room]));
    }
    let refused = Err(Refused { number: 21, place: 512 });
    assert_eq!(picks_put(&most, 511), (refused, vec![9; 511]));
}

/// The bytes after the picks stay as they were.
#[test]
fn a_buffer_that_has_room_for_picks() {
    assert_eq!(picks_put(&picks_alone(3), 6), (Ok(6), vec![0, 7, 1, 7, 2, 7]));
    assert_eq!(picks_put(&picks_alone(3), 9), (Ok(6), vec![0, 7, 1, 7, 2, 7, 9, 9, 9]));
    assert_eq!(picks_put(&[], 2), (Ok(0), vec![9; 2]));
    assert_eq!(picks_put(&[], 0), (Ok(0), vec![]));
}

#[test]
fn as_many_picks_as_a_file_can_have() {
    let all: Vec<Pick> = (0..=255).map(|thread| Pick { thread, row: 7 }).collect();
    assert_eq!(picks(&picks_alone(256)), Ok(all));
    assert_eq!(picks(&picks_alone(257)), Err(Refused { number: 2, place: 256 }));
}

/// The file is judged before the buffer, which stays as it was.
#[test]
fn a_refused_file_gives_no_picks() {
    let (mut file, broken) = (picks_alone(3), &picks_alone(3)[1..]);
    file[104 + 3] = 1;
    for room in [0, 5, 6, 20] {
        let refused = |number, place| (Err(Refused { number, place }), vec![9; room]);
        assert_eq!(picks_put(&file, room), refused(4, 1));
        assert_eq!(picks_put(broken, room), refused(1, 2));
    }
}
