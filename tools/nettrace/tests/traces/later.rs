//! A later engine binds values of a kind that is unknown here: they are told as bound.

use crate::double::stand_in;
use embed::{Answer, Pick, Refused, RECORD_BYTES};
use nettrace::{trace, Calls, Source};

/// The stand-in, with a tag of a later engine for every Int that a variable holds.
struct Later {
    answer: fn(Answer) -> Answer,
}

const VARIABLE: u8 = 66;
const INT: u8 = 1;

impl Calls for Later {
    fn picks(&self, file: &[u8]) -> Result<Vec<Pick>, Refused> {
        stand_in::picks(file)
    }

    fn answers(&self, file: &[u8], picks: &[Pick]) -> Result<Vec<Answer>, Refused> {
        Ok(stand_in::answers(file, picks)?.into_iter().map(self.answer).collect())
    }

    fn trace(
        &self,
        file: &[u8],
        picks: &[Pick],
        from: usize,
        out: &mut [u8],
    ) -> Result<usize, Refused> {
        let put = stand_in::trace(file, picks, from, out)?;
        let variables = out[..put].chunks_exact_mut(RECORD_BYTES);
        let ints = variables.filter(|record| record[0] == VARIABLE && record[56] == INT);
        ints.for_each(|record| record[56] = 4);
        Ok(put)
    }
}

const NET: &str = "\
table CARD at site 0 (Int)
row (36) in CARD at site 0
process p:
    aggregate count over (!x0) in CARD @self giving !x5
    delete (x5) from CARD @self into T0
    drop CARD @self
start p at site 0
pick thread 0
pick thread 0
";

/// The net before, the picks and the net after.
fn parts(answer: fn(Answer) -> Answer) -> Vec<String> {
    let source = Source::of_text("net.nettext", NET.as_bytes()).expect("a text");
    let mut out = Vec::new();
    assert!(trace(&Later { answer }, &source, None, &mut out).is_ok());
    let told = String::from_utf8(out).expect("a text");
    told.split("\n\n").map(str::to_owned).collect()
}

#[test]
fn a_value_that_is_not_known_is_told_as_such() {
    let parts = parts(|answer| answer);
    let bound = "\n    x5 = a value that this nettrace does not know\n";
    assert!(parts[1].contains(bound), "{}", parts[1]);
    let judged = "\n          (36)    x5 is a value that this nettrace does not know\n";
    assert!(parts[2].contains(judged), "{}", parts[2]);
    let held = "\n        x5 = a value that this nettrace does not know\n";
    assert!(parts[3].contains(held), "{}", parts[3]);
}

/// A step that reads it is not said to read an unbound variable.
#[test]
fn a_value_that_is_not_known_is_bound() {
    let parts = parts(|_| Answer::Refused(12));
    let meaning = nettext::number(12).expect("a number").wrong;
    assert!(parts[2].contains(&format!("\n    refused: 12, {meaning}\n")), "{}", parts[2]);
}
