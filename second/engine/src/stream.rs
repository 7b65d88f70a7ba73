//! The text that netwindow prints of a stream of records, which may be longer than memory.

use crate::quirk::{wrong, Quirk};
use crate::record::SIZE;
use crate::window::{begin, Answer};
use std::io::{self, ErrorKind, Read, Write};

/// Takes a stream's records one after another and prints the answer for each.
pub fn netwindow(
    width: u64,
    column: u64,
    stream: &mut impl Read,
    out: &mut impl Write,
) -> io::Result<()> {
    let mut window = match begin(width, column) {
        Ok(window) => window,
        Err(number) => return writeln!(out, "window no {number}"),
    };
    let mut piece = [0; SIZE];
    let mut before = None;
    for place in 0_u64.. {
        let record = next(stream, &mut piece)?;
        if record.is_empty() {
            break;
        }
        match window.take(record).map(|answer| since_beginning(answer, &mut before)) {
            Ok(Answer { sum, least, largest }) => {
                writeln!(out, "record {place} {sum} {least} {largest}")?
            }
            Err(number) => writeln!(out, "record {place} no {number}")?,
        }
        if record.len() < SIZE {
            break;
        }
    }
    Ok(())
}

/// The next record of a stream: shorter than the others at its end, empty past it.
fn next<'a>(stream: &mut impl Read, piece: &'a mut [u8; SIZE]) -> io::Result<&'a [u8]> {
    let mut length = 0;
    while length < SIZE {
        match stream.read(&mut piece[length..]) {
            Ok(0) => break,
            Ok(more) => length += more,
            Err(error) if error.kind() == ErrorKind::Interrupted => {}
            Err(error) => return Err(error),
        }
    }
    Ok(&piece[..length])
}

/// The answer itself, but for a wrong engine, which forgets no least and no largest.
fn since_beginning(answer: Answer, before: &mut Option<Answer>) -> Answer {
    if !wrong(Quirk::WindowSinceBeginning) {
        return answer;
    }
    let old = before.unwrap_or(answer);
    let (least, largest) = (answer.least.min(old.least), answer.largest.max(old.largest));
    *before.insert(Answer { least, largest, ..answer })
}

/// The number that digits say, or the largest of 64 bits where they say a larger one; none where
/// there are other bytes, or no bytes at all.
pub fn decimal(digits: &[u8]) -> Option<u64> {
    let good = !digits.is_empty() && digits.iter().all(u8::is_ascii_digit);
    let add =
        |number: u64, digit: &u8| number.saturating_mul(10).saturating_add(u64::from(digit - b'0'));
    good.then(|| digits.iter().fold(0, add))
}
