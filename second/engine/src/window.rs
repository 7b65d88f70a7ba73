//! A moving window over a stream of row records: the sum, the least and the largest of one Int
//! column over the last rows taken.

use crate::list::List;
use crate::number;
use crate::quirk::{wrong, Quirk};
use crate::record::{decode, Record, SIZE};
use crate::value::Value;

/// The most rows that a window may have.
const MOST: usize = 16;

/// The length of a state as bytes: width, column and number of Ints in eight bytes each, then room
/// for the most Ints.
pub const STATE: usize = HEAD + 4 * MOST;

const HEAD: usize = 3 * 8;

/// What one record leaves for the next. A caller may have made it by hand, so nothing is promised
/// of it.
#[derive(Clone, Copy, PartialEq, Eq, Debug)]
pub struct Window {
    pub width: u64,
    pub column: u64,
    /// The Ints of the rows in the window, the oldest first.
    pub ints: List<i32, MOST>,
}

/// About the rows in the window; the sum is whole and may leave 32 bits.
#[derive(Clone, Copy, PartialEq, Eq, Debug)]
pub struct Answer {
    pub sum: i64,
    pub least: i32,
    pub largest: i32,
}

/// A window that no row has entered. Any column will do here: a record says whether it has one.
pub fn begin(width: u64, column: u64) -> Result<Window, u8> {
    let window = Window { width, column, ints: List::default() };
    window.judge()?;
    Ok(window)
}

impl Window {
    /// Takes the next record. A refused one leaves the window as it was.
    pub fn take(&mut self, record: &[u8]) -> Result<Answer, u8> {
        if wrong(Quirk::WindowRecordFirst) {
            int_in(record, self.column).ok_or(number::NO_INT)?;
        }
        self.judge()?;
        let Some(int) = int_in(record, self.column) else {
            self.spoil();
            return Err(number::NO_INT);
        };
        self.enter(int);
        Ok(self.answer(int))
    }

    fn judge(&self) -> Result<(), u8> {
        let columns = !wrong(Quirk::WindowColumnJudged) || self.column < 4;
        let good = (1..=MOST as u64).contains(&self.width) && columns;
        let full = usize::from(wrong(Quirk::WindowFullRefused));
        if good && self.ints.len() + full <= self.room() {
            return Ok(());
        }
        Err(number::NO_WINDOW)
    }

    /// How many rows a window of a good width holds.
    fn room(&self) -> usize {
        let width = self.width as usize;
        if wrong(Quirk::WindowShort) {
            return (width - 1).max(1);
        }
        if wrong(Quirk::WindowLong) {
            return (width + 1).min(MOST);
        }
        width
    }

    fn enter(&mut self, int: i32) {
        if self.ints.len() >= self.room() {
            self.ints.shift();
        }
        self.ints.push(int);
    }

    /// What wrong engines do to the window with a refused record.
    fn spoil(&mut self) {
        if wrong(Quirk::WindowRefusedPushes) {
            self.ints.shift();
        }
        if wrong(Quirk::WindowRefusedZero) {
            self.enter(0);
        }
    }

    /// The newest Int is in the window, so there is a least and a largest.
    fn answer(&self, newest: i32) -> Answer {
        let sum: i64 = self.ints.iter().map(|int| i64::from(*int)).sum();
        Answer {
            sum: if wrong(Quirk::WindowSumWraps) { i64::from(sum as i32) } else { sum },
            least: self.ints.iter().copied().fold(newest, i32::min),
            largest: self.ints.iter().copied().fold(newest, i32::max),
        }
    }

    /// The state for a caller to keep; also of a wrong one, which `from_bytes` then refuses.
    pub fn to_bytes(&self) -> [u8; STATE] {
        let mut bytes = [0; STATE];
        let (head, ints) = bytes.split_at_mut(HEAD);
        let words = [self.width, self.column, self.ints.len() as u64];
        head.copy_from_slice(words.map(u64::to_le_bytes).as_flattened());
        for (int, place) in self.ints.iter().zip(ints.as_chunks_mut().0) {
            *place = int.to_le_bytes();
        }
        bytes
    }

    pub fn from_bytes(bytes: &[u8]) -> Result<Window, u8> {
        let window = unjudged(bytes).ok_or(number::NO_WINDOW)?;
        window.judge()?;
        Ok(window)
    }
}

/// None where the bytes have another form than those of any window.
fn unjudged(bytes: &[u8]) -> Option<Window> {
    let bytes: &[u8; STATE] = bytes.try_into().ok()?;
    let (head, ints) = bytes.split_at(HEAD);
    let [width, column, held] = *head.as_chunks().0 else {
        return None;
    };
    let held = usize::try_from(u64::from_le_bytes(held)).ok()?;
    let (ints, unused) = ints.as_chunks().0.split_at_checked(held)?;
    let window = Window {
        width: u64::from_le_bytes(width),
        column: u64::from_le_bytes(column),
        ints: ints.iter().copied().map(i32::from_le_bytes).collect(),
    };
    unused.iter().all(|bytes| *bytes == [0; 4]).then_some(window)
}

/// The Int of a row record in that column; none where it is of another length, breaks check 3 or
/// 4, is no row, or has no Int there. Its table is not asked for.
fn int_in(record: &[u8], column: u64) -> Option<i32> {
    let bytes: &[u8; SIZE] = record.try_into().ok()?;
    let Record::Row { row, .. } = decode(bytes)? else {
        return None;
    };
    let first = u64::from(wrong(Quirk::WindowColumnFromOne));
    let column = usize::try_from(column.checked_sub(first)?).ok()?;
    match row.get(column) {
        Some(Value::Int(int)) => Some(*int),
        _ => None,
    }
}
