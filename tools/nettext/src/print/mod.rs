//! From the records of a file to its text.

mod operand;
mod printer;
mod step;
mod unread;

use engine::{load, Fault, RECORD_SIZE};
pub use operand::{columns, kind, name, operand, row, value};
use printer::{slots, Printer};
use std::io::{self, Write};
pub use step::step;

/// The text of a file that loading accepts; it assembles to the same bytes.
pub fn dump(file: &[u8]) -> Result<String, Fault> {
    load(file)?;
    let slots = slots(file.as_chunks().0);
    let mut printer = Printer::new(&slots);
    Ok((0..slots.len()).map(|place| printer.record(place, "")).collect())
}

/// The text of any file. What does not read as a statement is a comment, and so is what loading
/// says at the record that it refuses.
pub fn dump_unchecked(file: &[u8], out: &mut dyn Write) -> io::Result<()> {
    let (records, rest) = file.as_chunks::<RECORD_SIZE>();
    let slots = slots(records);
    let mut printer = Printer::new(&slots);
    let fault = load(file).err();
    if let Some(Fault { number, place }) = fault {
        writeln!(out, "# Loading refuses this file: load {number} at {place}, marked below.\n")?;
    }
    for (place, bytes) in records.iter().enumerate() {
        let mark = unread::mark(fault, place);
        let text = match slots[place].record {
            Some(_) => printer.record(place, &mark),
            None => mark + &unread::record(place, bytes),
        };
        out.write_all(text.as_bytes())?;
    }
    if rest.is_empty() {
        return Ok(());
    }
    let mark = unread::mark(fault, records.len());
    out.write_all((mark + &unread::rest(records.len(), rest)).as_bytes())
}
