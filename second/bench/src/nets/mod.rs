//! Nets at the limits, as files, which both engines load.

pub mod kinds;
pub mod left_early;
pub mod mixed;
pub mod nested;
mod parts;
pub mod single;

use engine::{load, run, Net, Pick};
use generate::record::{file, Record};

/// A net in two files, since one has at most 256 records, which is too few for all of it.
pub struct Files {
    /// Aliases, tables and rows.
    pub tables: Vec<u8>,
    /// Nodes and starts.
    pub program: Vec<u8>,
}

impl Files {
    fn new(tables: &[Record], program: &[Record]) -> Files {
        Files { tables: file(tables), program: file(program) }
    }

    /// The net that chains and runs begin with: every thread has taken node 0, which binds its
    /// table variable 0. Crate `bench` puts it together in the same way.
    pub fn start(&self) -> Net {
        let (tables, _) = load(&self.tables).expect("a file that loads");
        let (program, _) = load(&self.program).expect("a file that loads");
        let mut net = Net { aliases: tables.aliases, tables: tables.tables, ..program };
        run(&mut net, &preparing());
        net
    }
}

/// Each thread once.
pub fn preparing() -> Vec<Pick> {
    (0..8).map(|thread| Pick { thread, row: 0 }).collect()
}
