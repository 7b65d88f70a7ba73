//! The text of an accepted file assembles to the bytes of the file.

use engine::load;
use generate::{examples, file, sweep, Class};
use nettext::{assemble, dump};

const FILES: usize = 10_000;

/// The bytes of the file again, by way of its text.
fn again(file: &[u8]) -> Vec<u8> {
    let text = dump(file).expect("an accepted file");
    match assemble(&text) {
        Ok(assembled) => {
            assert_eq!(assembled.check(), Ok(()), "{text}");
            assembled.file
        }
        Err(error) => panic!("{}{text}", error.shown("dump", &text)),
    }
}

/// Whether the file is accepted; if so, its text gives it back, else the dump says the fault.
fn comes_back(file: &[u8]) -> bool {
    match load(file) {
        Ok(_) => assert!(again(file) == *file, "{:?}", dump(file)),
        Err(fault) => assert_eq!(dump(file), Err(fault)),
    }
    load(file).is_ok()
}

#[test]
fn ten_thousand_generated_files_come_back() {
    let mut accepted = 0;
    let mut seed = 0;
    while accepted < FILES {
        accepted += usize::from(comes_back(&file(Class::Mixed, seed)));
        seed += 1;
    }
}

/// Each field takes other values in turn, those at the ends of its range among them.
#[test]
fn files_with_one_byte_changed_come_back() {
    let round = sweep::round() as u64;
    let accepted = (0..3 * round).filter(|index| comes_back(&file(Class::Sweep, *index))).count();
    assert!(accepted > 500, "{accepted}");
}

#[test]
fn examples_computed_by_hand_come_back() {
    let examples = examples::all();
    let accepted = examples.iter().filter(|example| comes_back(&example.file)).count();
    assert!(accepted > 50 && accepted < examples.len(), "{accepted}");
}

#[test]
fn no_records_are_no_text() {
    assert_eq!(dump(&[]), Ok(String::new()));
    assert!(assemble("").is_ok_and(|assembled| assembled.file.is_empty()));
    assert!(assemble("\n# nothing\n\n").is_ok_and(|assembled| assembled.file.is_empty()));
}
