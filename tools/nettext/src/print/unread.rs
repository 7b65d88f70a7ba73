//! Comments on the records that loading refuses and on those that do not read.

use crate::error::Error;
use crate::numbers::number;
use engine::{decode, number, Fault, RECORD_SIZE};

/// Bytes are shown in groups of eight, as operands lie.
const GROUP: usize = 8;
/// So many bytes at most are named as the one that is wrong.
const NAMED: usize = 4;
/// Every field takes one of these values.
const TRIED: [u8; 9] = [0, 1, 2, 3, 4, 5, 6, 7, b' '];
/// Records further down are past what loading looks at.
const RECORDS: usize = 256;

/// What loading says of the record, and what to do; empty for a record that it does not refuse.
pub fn mark(fault: Option<Fault>, place: usize) -> String {
    match fault {
        Some(fault) if fault.place == place => {
            let Error { message, advice, .. } = Error::refused_file(fault.number, place);
            format!("# {message}\n# {advice}")
        }
        _ => String::new(),
    }
}

/// A record that does not read: what is wrong, and its bytes.
pub fn record(place: usize, bytes: &[u8; RECORD_SIZE]) -> String {
    let kind = bytes[0];
    let wrong = match kind {
        1..=3 | 16..=26 | 32 | 33 => format!("{}{}", wrong(number::FIELD), suspects(place, bytes)),
        _ => format!("the kind {kind} is unknown"),
    };
    format!("# record {place}: {wrong}: {}\n", hex(bytes))
}

/// The bytes behind the last whole record.
pub fn rest(place: usize, bytes: &[u8]) -> String {
    format!("# record {place}: {} of {RECORD_SIZE} bytes: {}\n", bytes.len(), hex(bytes))
}

fn wrong(of: u8) -> &'static str {
    number(of).map_or("", |entry| entry.wrong)
}

fn hex(bytes: &[u8]) -> String {
    let group = |bytes: &[u8]| bytes.iter().map(|byte| format!("{byte:02x}")).collect::<String>();
    bytes.chunks(GROUP).map(group).collect::<Vec<_>>().join(" ")
}

/// The bytes of which one alone is wrong: with some other value there the record would read.
fn suspects(place: usize, bytes: &[u8; RECORD_SIZE]) -> String {
    if place >= RECORDS {
        return String::new();
    }
    let places: Vec<String> = repairs(bytes, &TRIED).into_iter().map(|at| at.to_string()).collect();
    if places.is_empty() || places.len() > NAMED {
        return String::new();
    }
    format!(" (byte {})", places.join(" or "))
}

/// The places where one of the values makes the record read.
fn repairs(bytes: &[u8; RECORD_SIZE], values: &[u8]) -> Vec<usize> {
    let reads_with = |at: usize, value: u8| {
        let mut other = *bytes;
        other[at] = value;
        decode(&other).is_some()
    };
    let reads = |at: &usize| values.iter().any(|value| reads_with(*at, *value));
    (1..RECORD_SIZE).filter(reads).collect()
}

#[cfg(test)]
mod tests {
    use super::*;
    use generate::{file, sweep, Class};

    /// The values tried are as good as all values.
    #[test]
    fn every_field_takes_a_value_that_is_tried() {
        let all: Vec<u8> = (0..=u8::MAX).collect();
        let mut found = 0;
        for index in (0..sweep::round() as u64).step_by(3) {
            let file = file(Class::Sweep, index);
            let broken = file.as_chunks().0.iter().filter(|record| decode(record).is_none());
            for record in broken.filter(|record| matches!(record[0], 1..=3 | 16..=26 | 32 | 33)) {
                let repairs = repairs(record, &TRIED);
                assert_eq!(repairs, super::repairs(record, &all));
                found += repairs.len();
            }
        }
        assert!(found > 100, "{found}");
    }
}
