//! What a trace tells of its own is told only where it agrees with the engine's answers.

use crate::double::{stand_in, StandIn};
use embed::{Answer, Pick, Refused};
use nettext::cli::Failure;
use nettrace::{trace, Calls, Source};

/// The stand-in, but for its answers.
struct Answering(Answer);

impl Calls for Answering {
    fn picks(&self, file: &[u8]) -> Result<Vec<Pick>, Refused> {
        stand_in::picks(file)
    }

    fn answers(&self, _: &[u8], picks: &[Pick]) -> Result<Vec<Answer>, Refused> {
        Ok(vec![self.0; picks.len()])
    }

    fn trace(
        &self,
        file: &[u8],
        picks: &[Pick],
        from: usize,
        out: &mut [u8],
    ) -> Result<usize, Refused> {
        stand_in::trace(file, picks, from, out)
    }
}

const NET: &str = "\
table CARD at site 0 (Int)
row (36) in CARD at site 0
process p:
    update (!x1) in CARD @self where x1 < 40 to (x1 + 2)
start p at site 0
pick thread 0
";

/// The part of the pick.
fn told(calls: &impl Calls) -> String {
    let source = Source::of_text("net.nettext", NET.as_bytes()).expect("a text");
    let mut out = Vec::new();
    assert!(trace(calls, &source, None, &mut out).is_ok());
    let told = String::from_utf8(out).expect("a text");
    told.split("\n\n").nth(1).expect("the pick").to_owned()
}

#[test]
fn rows_are_judged_as_the_engine_did_or_not_at_all() {
    let judged = "table CARD at site 0\n        - (36)    36 < 40\n        + (38)\n";
    assert!(told(&StandIn).contains(judged));
    let differs = told(&Answering(Answer::Done { added: 2, taken: 1 }));
    let plain = "table CARD at site 0\n        - (36)\n        + (38)\n";
    assert!(differs.contains(plain), "{differs}");
}

/// A number that nothing in the net speaks of is told by its meaning.
#[test]
fn a_case_that_is_not_there_is_not_told() {
    for number in 11..=20 {
        let meaning = nettext::number(number).expect("a number").wrong;
        let told = told(&Answering(Answer::Refused(number)));
        assert!(told.contains(&format!("\n    refused: {number}, {meaning}\n")), "{told}");
        assert!(!told.contains("stay as they were"), "{told}");
    }
    assert!(told(&Answering(Answer::Refused(99))).contains("\n    refused: 99"));
}

/// The stand-in, but for the picks of a file.
struct Picking(Result<Vec<Pick>, Refused>);

impl Calls for Picking {
    fn picks(&self, _: &[u8]) -> Result<Vec<Pick>, Refused> {
        self.0.clone()
    }

    fn answers(&self, file: &[u8], picks: &[Pick]) -> Result<Vec<Answer>, Refused> {
        stand_in::answers(file, picks)
    }

    fn trace(
        &self,
        file: &[u8],
        picks: &[Pick],
        from: usize,
        out: &mut [u8],
    ) -> Result<usize, Refused> {
        stand_in::trace(file, picks, from, out)
    }
}

/// A file's own picks are those that the engine gives out, and not what stands in its records.
#[test]
fn own_picks_are_those_that_the_engine_gives() {
    let told = told(&Picking(Ok(vec![Pick { thread: 6, row: 0 }])));
    assert!(told.starts_with("pick 0: thread 6, which is not there\n"), "{told}");
    let refused = Picking(Err(Refused { number: 7, place: 1 }));
    let source = Source::of_records("net", Vec::new());
    let mut out = Vec::new();
    let Err(Failure::AtFault(report)) = trace(&refused, &source, None, &mut out) else {
        panic!("the picks were refused");
    };
    assert!(out.is_empty() && report.starts_with("net: load 7 at 1: "), "{report}");
}
