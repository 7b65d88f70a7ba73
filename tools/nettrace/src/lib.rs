//! Runs of nets, told pick by pick: what each one met, what the engine answered, and what changed.
//!
//! Nothing is decided here. Answers, tables, threads and bindings are those of the engine after each
//! pick. What a row was judged against, and which case a refusal's number speaks of, is read off
//! them and off the step, and is told only where it agrees with the answer.
#![forbid(unsafe_code)]

mod bindings;
mod calls;
mod changes;
mod fitting;
mod judging;
mod listing;
mod moment;
mod outcome;
mod parts;
mod picks;
mod progress;
mod reading;
mod refusal;
mod rounds;
mod run;
mod scene;
mod source;
mod steps;
mod tell;
mod threads;
mod words;

pub use calls::Calls;
#[cfg(feature = "proved")]
pub use calls::Proved;
pub use picks::{parse as parse_picks, parse_list as parse_pick_list};
pub use source::Source;

use embed::{Pick, Refused};
use nettext::cli::Failure;
use run::{Run, Turn};
use std::io::Write;
use steps::Steps;
use tell::{total, Teller};

/// Tells the run of a net's own picks, or of others, each pick as soon as it is known. Fails with
/// the report on a file that is refused, or where the text can't be written.
pub fn trace(
    calls: &impl Calls,
    source: &Source,
    picks: Option<Vec<Pick>>,
    out: &mut dyn Write,
) -> Result<(), Failure> {
    let refused = |refused: Refused| Failure::AtFault(source.refusal(refused));
    let picks = match picks {
        Some(picks) => picks,
        None => calls.picks(source.file()).map_err(refused)?,
    };
    let mut run = Run::new(calls, source.file(), &picks).map_err(refused)?;
    let mut before = run.moment().map_err(refused)?;
    let mut teller = Teller::new(Steps::new(source), &before);
    tell(out, &teller.moment("before the first pick", &before))?;
    for (place, pick) in picks.iter().enumerate() {
        let after = run.moment().map_err(refused)?;
        let (pick, answer) = (*pick, run.answers[place]);
        let turn = Turn { place, pick, answer, before: &before, after: &after };
        tell(out, &teller.turn(&turn))?;
        before = after;
    }
    tell(out, &teller.moment("after the last pick", &before))?;
    tell(out, &total(&run.answers))
}

/// Nothing waits for what comes later.
fn tell(out: &mut dyn Write, text: &str) -> Result<(), Failure> {
    out.write_all(text.as_bytes())?;
    Ok(out.flush()?)
}
