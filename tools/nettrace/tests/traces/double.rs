//! Traces by the second engine, which stands in for the proved one.

// The tests of embed use the calls that a trace does not ask.
#[allow(dead_code)]
#[path = "../../../embed/tests/stand_in/mod.rs"]
pub mod stand_in;

use crate::page::read;
use embed::{Answer, Pick, Refused};
use nettext::cli::Failure;
use nettrace::{parse_picks, trace, Calls, Source};

/// The second engine in the proved engine's place.
pub struct StandIn;

impl Calls for StandIn {
    fn picks(&self, file: &[u8]) -> Result<Vec<Pick>, Refused> {
        stand_in::picks(file)
    }

    fn answers(&self, file: &[u8], picks: &[Pick]) -> Result<Vec<Answer>, Refused> {
        stand_in::answers(file, picks)
    }

    fn trace(
        &self,
        file: &[u8],
        picks: &[Pick],
        from: usize,
        out: &mut [u8],
    ) -> Result<usize, Refused> {
        stand_in::trace(file, picks, from, out)
    }
}

/// What a trace writes, or the report on the file.
pub fn told(source: &Source, picks: Option<Vec<Pick>>) -> Result<String, String> {
    let mut out = Vec::new();
    match trace(&StandIn, source, picks, &mut out) {
        Ok(()) => Ok(String::from_utf8(out).expect("a text")),
        Err(Failure::AtFault(report)) => Err(report),
        Err(_) => panic!("memory can be written"),
    }
}

/// The trace of a text with its own picks, or the report on it.
pub fn traced(text: &str) -> Result<String, String> {
    told(&Source::of_text("net.nettext", text.as_bytes())?, None)
}

/// What the arguments FILE or FILE --picks PICKS come to with the test double.
pub fn by_stand_in(arguments: &[&str]) -> String {
    let (file, picks) = match arguments {
        [file] => (file, None),
        [file, "--picks", picks] => (file, Some(parse_picks(picks).expect("picks"))),
        other => panic!("{other:?}"),
    };
    let source = Source::of_text(file, read(file).as_bytes()).expect("a text");
    told(&source, picks).expect("a net that loads")
}
