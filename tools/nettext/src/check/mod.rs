//! Why loading refuses a text's net, in the words of the text. Whether it does is the loader's to
//! say; here its checks are gone through by the statements, and on after a fault, to tell them all.

mod declared;
mod links;
mod tables;
mod warnings;

use crate::error::Error;
use crate::errors::Errors;
use crate::item::Statement;
use crate::labels::Labels;
use crate::numbers::refusal_that;
use crate::token::Place;
pub use warnings::{no_record, warnings};

/// What is wrong with a net, in the order in which loading finds it.
#[derive(Default)]
pub struct Faults {
    pub errors: Errors,
    /// Number and record of the first.
    pub first: Option<(u8, usize)>,
}

/// A record of the file and where its statement stands.
#[derive(Clone, Copy)]
pub struct At {
    record: usize,
    place: Place,
}

/// What is wrong, and what to do.
type Words = (String, String);

pub fn faults(statements: &[Statement], labels: &Labels) -> Faults {
    let mut faults = Faults::default();
    declared::check(statements, &mut faults);
    links::check(statements, labels, &mut faults);
    faults
}

impl Faults {
    /// The words are made only if they are told.
    fn add(&mut self, number: u8, at: At, words: impl FnOnce() -> Words) {
        let At { record, place } = at;
        self.first.get_or_insert((number, record));
        self.errors.add(|| {
            let (wrong, to_do) = words();
            Error::at(place, refusal_that(number, record, &wrong), &to_do)
        });
    }
}

/// The statements with their records.
fn records(statements: &[Statement]) -> impl Iterator<Item = (At, &Statement)> {
    let records = statements.iter().enumerate();
    records.map(|(record, statement)| (At { record, place: statement.place }, statement))
}

#[cfg(test)]
mod tests {
    use super::*;
    use crate::parse::parse;
    use crate::print::dump_unchecked;
    use engine::{decode, load, RECORD_SIZE};
    use generate::{file, Class};

    /// What loading says and what is said here; None for files that have no whole text.
    fn both(file: &[u8]) -> Option<[Option<(u8, usize)>; 2]> {
        let (records, rest) = file.as_chunks::<RECORD_SIZE>();
        if !rest.is_empty() || records.iter().any(|record| decode(record).is_none()) {
            return None;
        }
        let mut text = Vec::new();
        dump_unchecked(file, &mut text).expect("room in memory");
        let parsed = parse(std::str::from_utf8(&text).expect("a text"));
        assert!(parsed.errors.is_empty());
        let loaded = load(file).err().map(|fault| (fault.number, fault.place));
        Some([loaded, faults(&parsed.statements, &parsed.labels).first])
    }

    /// The first fault is the loader's, and where there is none there is none.
    #[test]
    fn the_loader_says_the_same() {
        let (mut accepted, mut refused) = (0, 0);
        for seed in 0..10_000 {
            let Some([loaded, said]) = both(&file(Class::Mixed, seed)) else {
                continue;
            };
            assert_eq!(loaded, said, "seed {seed}");
            accepted += usize::from(loaded.is_none());
            refused += usize::from(loaded.is_some());
        }
        assert!(accepted > 4_000 && refused > 1_000, "{accepted} {refused}");
    }
}
