//! The net between two picks, as `tivgeral_trace` puts it out.

use crate::bindings::{bind, columns, values, Bindings};
use crate::bindings::{TABLE_VARIABLE_ROW, VARIABLE};
use crate::value::{Relation, Value};
use crate::{Variable, RECORD_BYTES};

pub(crate) type Record = [u8; RECORD_BYTES];

// The kinds of a moment's records, but for those of bindings.
const TABLE: u8 = 2;
const ROW: u8 = 3;
const MOMENT: u8 = 64;
const THREAD: u8 = 65;
const ENTRY: u8 = 69;

/// The tables and threads, each at its place.
#[derive(Clone, PartialEq, Eq, Debug, Default)]
#[non_exhaustive]
pub struct Moment {
    pub tables: Vec<Table>,
    pub threads: Vec<ThreadState>,
}

#[derive(Clone, PartialEq, Eq, Debug)]
pub struct Table {
    pub site: u8,
    pub name: [u8; 4],
    pub content: Relation,
}

/// All that a thread holds; a table variable that is unbound is none. Its variables and table
/// variables are what it has bound itself, not what its loops hold.
#[derive(Clone, PartialEq, Eq, Debug, Default)]
#[non_exhaustive]
pub struct ThreadState {
    pub site: u8,
    pub variables: [Variable; 16],
    pub table_variables: [Option<Relation>; 2],
    /// The top entry first, which a pick would run.
    pub stack: Vec<Entry>,
}

/// A later library may have entries hold more.
#[derive(Clone, PartialEq, Eq, Debug)]
pub enum Entry {
    /// A node to run.
    #[non_exhaustive]
    Run { node: u8 },
    /// A loop that has begun, with the row places still to visit. A sequential loop's entry holds
    /// the bindings of the moment when the loop was first met, which come back at the end of each
    /// round. A parallel loop's holds none.
    #[non_exhaustive]
    Loop { node: u8, left: Vec<u8>, held: Option<Box<Bindings>> },
}

impl Moment {
    /// The moments in the bytes that `tivgeral_trace` puts out, read one after another.
    pub fn all(bytes: &[u8]) -> impl Iterator<Item = Moment> + '_ {
        let mut read = 0;
        std::iter::from_fn(move || {
            let (moment, length) = Moment::first(&bytes[read..])?;
            read += length;
            Some(moment)
        })
    }

    /// The first of these moments, and how many bytes there are up to its end. Records before it,
    /// which are of no moment, are skipped.
    pub fn first(bytes: &[u8]) -> Option<(Moment, usize)> {
        let records: &[Record] = bytes.as_chunks().0;
        let start = records.iter().position(|record| record[0] == MOMENT)?;
        let end = start + length(&records[start]);
        Some((Moment::read(records.get(start..end)?), end * RECORD_BYTES))
    }

    /// Kinds that are unknown here are skipped, so that a later library may add some.
    fn read(records: &[Record]) -> Moment {
        let mut moment = Moment::default();
        for record in records {
            match record[0] {
                TABLE => moment.tables.push(Table::read(record)),
                ROW => moment.add_row(record),
                THREAD => moment.threads.push(ThreadState::at(record[1])),
                VARIABLE..=TABLE_VARIABLE_ROW | ENTRY => moment.add_part(record),
                _ => {}
            }
        }
        moment
    }

    /// A row goes to the table of its site and name.
    fn add_row(&mut self, record: &Record) {
        let own = |table: &&mut Table| table.site == record[1] && table.name == record[4..8];
        if let Some(table) = self.tables.iter_mut().find(own) {
            table.content.rows.push(Value::read_row(values(record)));
        }
    }

    /// What a thread holds comes after the thread.
    fn add_part(&mut self, record: &Record) {
        if let Some(thread) = self.threads.last_mut() {
            thread.add(record);
        }
    }
}

/// How many records the moment has that begins with this one, which counts.
fn length(first: &Record) -> usize {
    let [_, _, _, _, a, b, c, d, ..] = *first;
    (u32::from_le_bytes([a, b, c, d]) as usize).max(1)
}

impl Table {
    fn read(record: &Record) -> Table {
        let [_, site, _, _, a, b, c, d, ..] = *record;
        Table { site, name: [a, b, c, d], content: Relation::new(columns(record)) }
    }
}

impl ThreadState {
    fn at(site: u8) -> ThreadState {
        ThreadState { site, ..ThreadState::default() }
    }

    /// Takes in a record that follows the thread's own. Bindings after a stack entry are those
    /// that the entry holds, not the thread's.
    fn add(&mut self, record: &Record) {
        match (record[0], self.stack.last_mut()) {
            (ENTRY, _) => self.stack.push(Entry::read(record)),
            (_, Some(entry)) => entry.hold(record),
            (_, None) => bind(&mut self.variables, &mut self.table_variables, record),
        }
    }
}

impl Entry {
    pub fn node(&self) -> u8 {
        match self {
            Entry::Run { node } | Entry::Loop { node, .. } => *node,
        }
    }

    fn read(record: &Record) -> Entry {
        let left = (0..16).zip(&record[8..24]).filter(|(_, flag)| **flag == 1);
        match record[1] {
            0 => Entry::Run { node: record[2] },
            _ => {
                let left = left.map(|(place, _)| place).collect();
                Entry::Loop { node: record[2], left, held: None }
            }
        }
    }

    /// Takes in a record of the bindings that the entry holds. No version has a node to run hold
    /// any: such records are skipped.
    fn hold(&mut self, record: &Record) {
        if let Entry::Loop { held, .. } = self {
            let Bindings { variables, table_variables } = &mut **held.get_or_insert_default();
            bind(variables, table_variables, record);
        }
    }
}

#[cfg(test)]
mod tests;
