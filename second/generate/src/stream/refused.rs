//! Records that a window refuses: of no known kind, with a broken field, no row, or with no Int in
//! the column.

use super::Plan;
use crate::damage::{break_fields, unknown_kind};
use crate::random::Random;
use crate::record::{loc, text, Operand, Record, LOC, SIZE, TEXT};
use crate::sweep;

/// Where the values of a row begin and end.
const VALUES: usize = 56;
const END: usize = 88;

/// Bytes that no Text has, the nearest ones first.
const NO_TEXT: [u8; 5] = [0x1F, 0x7F, 0x00, 0x80, 0xFF];

/// Sites and localities that are none, the nearest one often.
const NO_PLACE: [u8; 6] = [8, 8, 8, 9, 128, 255];

pub fn refused(random: &mut Random, plan: &Plan) -> Record {
    let good = plan.good(random);
    match random.below(10) {
        0 => good.byte(0, unknown_kind(random)),
        1 => changed_anywhere(random, good),
        2 => broken(random, good),
        3 | 4 => broken_value(random, good),
        5 => {
            let other = other_kind(random);
            break_fields(random, other)
        }
        6 | 7 => other_kind(random),
        _ => without_int(random, plan),
    }
}

/// A byte with another value; an Int may be another Int by it.
pub fn changed(random: &mut Random, record: Record, at: usize) -> Record {
    record.byte(at, record.0[at].wrapping_add(not_zero(random)))
}

fn changed_anywhere(random: &mut Random, record: Record) -> Record {
    let at = random.below(SIZE);
    changed(random, record, at)
}

fn not_zero(random: &mut Random) -> u8 {
    let any = random.between(1, 255) as u8;
    *random.choose(&[1, 255, 128, any])
}

/// A good record that is no row.
fn other_kind(random: &mut Random) -> Record {
    let mut others = sweep::base();
    others.retain(|record| record.kind() != 3);
    // Alike for the groups of records, though most are nodes.
    let group = random.below(5);
    others.retain(|record| group_of(record.kind()) == group);
    *random.choose(&others)
}

fn group_of(kind: u8) -> usize {
    match kind {
        1 => 0,
        2 => 1,
        32 => 2,
        33 => 3,
        _ => 4,
    }
}

/// A row with another kind of value in the column, or too short to have it.
fn without_int(random: &mut Random, plan: &Plan) -> Record {
    match random.below(3) {
        0 => plan.row_with(random, TEXT),
        1 => plan.row_with(random, LOC),
        _ => plan.short_row(random),
    }
}

/// A row with a wrong site, a wrong name or a byte where none is used.
fn broken(random: &mut Random, row: Record) -> Record {
    match random.below(3) {
        0 => row.byte(1, *random.choose(&NO_PLACE)),
        1 => row.byte(random.between(4, 7), *random.choose(&NO_TEXT)),
        _ => {
            let (low, high) = *random.choose(&[(2, 3), (8, VALUES - 1), (END, SIZE - 1)]);
            row.byte(random.between(low, high), not_zero(random))
        }
    }
}

/// A row with a wrong value, or with a gap among its values, or with none.
fn broken_value(random: &mut Random, row: Record) -> Record {
    let values = (VALUES..END).step_by(8).take_while(|at| row.0[*at] != 0).count();
    let at = VALUES + 8 * random.below(values);
    match random.below(7) {
        0 => row.byte(at, *random.choose(&[4, 5, 6, 7, 255])),
        1 => row.byte(at + random.between(1, 3), not_zero(random)),
        2 => row.bytes(at, &no_text(random)),
        3 => row.bytes(at, &no_locality(random)),
        4 => row.bytes(at, &[0, 0, 0, 0, not_zero(random), 0, 0, 0]),
        5 => row.bytes(VALUES, &[0; 8]),
        _ => row.bytes(VALUES, &[0; END - VALUES]),
    }
}

fn no_text(random: &mut Random) -> Operand {
    let mut bytes = *b"aZ~ ";
    bytes[random.below(4)] = *random.choose(&NO_TEXT);
    text(&bytes)
}

/// The number of no locality, or of one with more in the bytes above it.
fn no_locality(random: &mut Random) -> Operand {
    if random.chance(50) {
        return loc(*random.choose(&NO_PLACE));
    }
    let mut operand = loc(random.below(8) as u8);
    operand[random.between(5, 7)] = not_zero(random);
    operand
}
