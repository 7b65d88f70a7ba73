//! The calls give what the second engine gives, on the examples and on generated files.
#![cfg(feature = "proved")]

mod pages;
#[path = "../stand_in/mod.rs"]
mod stand_in;

use embed::{answers, page, picks, tables, threads, trace, Moment, Pick, Refused};
use generate::{examples, file, Class};

const FILES: u64 = 1_000;

/// The file's own picks, or some others for a file that is refused, whatever the picks.
fn picks_for(file: &[u8]) -> Vec<Pick> {
    picks(file).unwrap_or(vec![Pick { thread: 0, row: 0 }; 4])
}

/// Both engines agree on the file's picks, and on what comes after none, half and all of them.
fn agree(file: &[u8], label: &str) {
    assert_eq!(picks(file), stand_in::picks(file), "{label}");
    let picks = picks_for(file);
    for count in [0, picks.len() / 2, picks.len()] {
        let picks = &picks[..count];
        let label = format!("{label} after {count} picks");
        assert_eq!(answers(file, picks), stand_in::answers(file, picks), "{label}");
        assert_eq!(tables(file, picks), stand_in::tables(file, picks), "{label}");
        assert_eq!(threads(file, picks), stand_in::threads(file, picks), "{label}");
    }
}

/// What a call of `trace` puts into a buffer of so many bytes; the rest of it stays as it was.
type Trace = fn(&[u8], &[Pick], usize, &mut [u8]) -> Result<usize, Refused>;

fn traced(call: Trace, file: &[u8], from: usize, room: usize) -> (Result<usize, Refused>, Vec<u8>) {
    let mut out = vec![7; room];
    let put = call(file, &picks_for(file), from, &mut out);
    assert!(out[put.unwrap_or(0)..].iter().all(|byte| *byte == 7), "bytes after the moments");
    (put, out)
}

/// Both engines put the same moments: from the first, a later and a last pick on, into a buffer
/// that has room for all of them, for some, and for none.
fn agree_on_moments(file: &[u8], label: &str) {
    let count = picks_for(file).len();
    for from in [0, count / 2, count, count + 3] {
        for room in [1 << 21, 20_000, 3_000, 103, 0] {
            let given = traced(trace, file, from, room);
            let expected = traced(stand_in::trace, file, from, room);
            assert!(given == expected, "{label} from {from} with room for {room}");
        }
    }
}

#[test]
fn moments_of_examples_and_generated_files() {
    examples::all().iter().for_each(|example| agree_on_moments(&example.file, example.name));
    (0..FILES / 2).for_each(|seed| agree_on_moments(&file(Class::Mixed, seed), &format!("{seed}")));
}

/// The moments tell the same as the other calls.
#[test]
fn moments_have_the_tables_and_threads() {
    let file = file(Class::Valid, 3);
    let picks = picks(&file).expect("a file that loads");
    let mut out = vec![0; 1 << 24];
    let put = trace(&file, &picks, 0, &mut out).expect("a file that loads");
    let moments: Vec<Moment> = Moment::all(&out[..put]).collect();
    assert_eq!(moments.len(), picks.len() + 1);
    for (count, moment) in moments.iter().enumerate() {
        let records = tables(&file, &picks[..count]).expect("a file that loads").len() / 104;
        let rows: usize = moment.tables.iter().map(|table| table.content.rows.len()).sum();
        assert_eq!(moment.tables.len() + rows, records);
        let threads = threads(&file, &picks[..count]).expect("a file that loads");
        let tops: Vec<(u8, u8)> =
            moment.threads.iter().map(|thread| (thread.site, thread.stack[0].node())).collect();
        assert_eq!(
            tops,
            threads.iter().map(|thread| (thread.site, thread.node)).collect::<Vec<_>>()
        );
    }
}

#[test]
fn examples_computed_by_hand() {
    examples::all().iter().for_each(|example| agree(&example.file, example.name));
}

#[test]
fn generated_files() {
    (0..FILES).for_each(|seed| agree(&file(Class::Mixed, seed), &format!("seed {seed}")));
}

/// Every call refuses a file alike, with its number and place.
#[test]
fn a_refused_file() {
    let refused = Refused { number: 1, place: 1 };
    let file = [0; 105];
    assert_eq!(answers(&file, &[]), Err(refused));
    assert_eq!(tables(&file, &[]), Err(refused));
    assert_eq!(threads(&file, &[]), Err(refused));
    assert_eq!(trace(&file, &[], 0, &mut []), Err(refused));
    assert_eq!(page(&file, &[], 0, *b"CARD"), Err(refused));
    assert_eq!(picks(&file), Err(refused));
}

/// The tables of a run load again, as the same tables, and have no picks.
#[test]
fn tables_load_again() {
    for seed in 0..100 {
        let file = file(Class::Valid, seed);
        let own = picks(&file).expect("a file that loads");
        let written = tables(&file, &own).expect("a file that loads");
        assert_eq!(picks(&written), Ok(Vec::new()));
        assert_eq!(tables(&written, &[]), Ok(written));
    }
}
