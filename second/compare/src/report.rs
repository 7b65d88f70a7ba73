//! Counting what agrees and telling what differs.

use crate::cases::Case;
use std::sync::atomic::{AtomicU64, Ordering};
use std::sync::Mutex;
use std::thread;

#[derive(Default)]
pub struct Report {
    pub agreed: usize,
    /// By the place of the case, so that the first ones come first.
    differences: Vec<(u64, String)>,
}

impl Report {
    pub fn differed(&self) -> usize {
        self.differences.len()
    }

    fn add(&mut self, place: u64, difference: Option<String>) {
        match difference {
            Some(difference) => self.differences.push((place, difference)),
            None => self.agreed += 1,
        }
    }

    /// The first differences, as many as asked for.
    pub fn first(&mut self, count: usize) -> impl Iterator<Item = &str> {
        self.differences.sort();
        self.differences.iter().take(count).map(|(_, difference)| difference.as_str())
    }
}

/// Compares the texts for a number of cases, several at a time.
pub fn compare(
    count: u64,
    jobs: usize,
    case: impl Fn(u64) -> Case + Sync,
    text: impl Fn(&Case) -> Result<Vec<u8>, String> + Sync,
) -> Report {
    let next = AtomicU64::new(0);
    let report = Mutex::new(Report::default());
    let work = || loop {
        let place = next.fetch_add(1, Ordering::Relaxed);
        if place >= count {
            break;
        }
        let case = case(place);
        let difference = difference(&case, text(&case));
        report.lock().expect("no worker fails").add(place, difference);
    };
    thread::scope(|scope| {
        for _ in 0..jobs {
            scope.spawn(work);
        }
    });
    report.into_inner().expect("no worker fails")
}

/// What differs in the text found, if anything.
fn difference(case: &Case, found: Result<Vec<u8>, String>) -> Option<String> {
    let found = match found {
        Ok(found) if found == case.text => return None,
        Ok(found) => found,
        Err(error) => return Some(format!("{}\n  {error}", case.label)),
    };
    let (wanted, found) = (lines(&case.text), lines(&found));
    let same = wanted.iter().zip(&found).take_while(|(wanted, found)| wanted == found).count();
    let (wanted, found) = (shown(wanted.get(same)), shown(found.get(same)));
    Some(format!("{}\n  line {}: expected {wanted}, found {found}", case.label, same + 1))
}

/// The lines with their line feeds.
fn lines(text: &[u8]) -> Vec<&[u8]> {
    text.split_inclusive(|byte| *byte == b'\n').collect()
}

/// A line made readable, and cut where it is longer than any that netrun prints.
fn shown(line: Option<&&[u8]>) -> String {
    match line {
        Some(line) => format!("\"{}\"", line[..line.len().min(80)].escape_ascii()),
        None => "no line".into(),
    }
}
