//! Loops, each in the one before it, around updates of 16 rows.

use super::parts::*;
use super::Files;
use generate::record::{Record, END};

/// Node 0 binds table variable 0, then come the loops, then updates, of which those up to `last`
/// are the innermost body.
pub struct Shape {
    pub nodes: u8,
    pub loops: u8,
    pub last: u8,
    /// How many nodes in a row work on one table.
    pub on_one_table: u8,
}

impl Shape {
    pub fn nodes(&self) -> Vec<Record> {
        (0..self.nodes).map(|number| self.node(number)).collect()
    }

    fn node(&self, number: u8) -> Record {
        let table = number / self.on_one_table;
        let ends = number == self.last || number + 1 == self.nodes;
        match number {
            0 => select(table, 0, 1),
            _ if number <= self.loops => looping(number + 1, END),
            _ => update(table, 1, if ends { END } else { number + 1 }),
        }
    }
}

/// Everything at its limit; four loops around twelve updates.
pub fn files() -> Files {
    let shape = Shape { nodes: 128, loops: 4, last: 16, on_one_table: 16 };
    let tables = tables(8, |_| 16);
    Files::new(&[aliases(), tables].concat(), &[shape.nodes(), starts(8)].concat())
}
