//! A seeded generator of files for netrun and of streams for netwindow, and examples computed by
//! hand.
#![forbid(unsafe_code)]

mod anew;
mod damage;
mod ended;
pub mod examples;
mod late;
mod looks;
mod program;
mod random;
mod reads;
pub mod record;
mod scope;
mod standing;
mod statement;
pub mod stats;
pub mod stream;
pub mod sweep;
mod trap;
mod valid;
mod world;

use random::Random;

/// What a file is made for.
#[derive(Clone, Copy, PartialEq, Eq, Debug)]
pub enum Class {
    /// It loads, and its picks find something to do.
    Valid,
    /// It has a fault or two, or is exactly at a limit.
    Damaged,
    /// One byte of a good file is changed; seeds go through all bytes in turn.
    Sweep,
    /// One of the others.
    Mixed,
}

impl Class {
    pub const NAMES: [(&'static str, Class); 4] = [
        ("valid", Class::Valid),
        ("damaged", Class::Damaged),
        ("sweep", Class::Sweep),
        ("mixed", Class::Mixed),
    ];

    pub fn named(name: &str) -> Option<Class> {
        Class::NAMES.iter().find(|(known, _)| *known == name).map(|(_, class)| *class)
    }
}

/// The file of a seed: the same on every run.
pub fn file(class: Class, seed: u64) -> Vec<u8> {
    let mut random = Random::new(seed);
    match class {
        Class::Valid => {
            let picks = random.weighted(&[(1, 8), (4, 60), (3, 256)]);
            valid::valid(&mut random, picks)
        }
        Class::Damaged => damage::damaged(&mut random),
        Class::Sweep => sweep::swept(seed),
        Class::Mixed => {
            let class =
                random.weighted(&[(5, Class::Valid), (4, Class::Damaged), (1, Class::Sweep)]);
            file(class, random.word())
        }
    }
}
