//! Nets whose templates leave every row at one field.

use super::parts::*;
use super::Files;
use generate::record::*;

const NODES: u8 = 128;

/// All rows are equal, so that a template of constants leaves each of them at the same field. Every
/// thread has taken node 0 before the picks, which count what matches and change no table.
pub fn files(failing: Option<usize>) -> Files {
    let node_of = |number: u8| {
        let next = if number + 1 == NODES { END } else { number + 1 };
        match number {
            0 => select(0, 0, next),
            _ => aggregate(number / 16, COUNT, next).template(&template(failing)),
        }
    };
    let nodes: Vec<Record> = (0..NODES).map(node_of).collect();
    let tables = tables_of(8, |_| 16, |_| values());
    Files::new(&[aliases(), tables].concat(), &[nodes, starts(8)].concat())
}

fn values() -> [Operand; 4] {
    [int(36), text(b"RIG1"), int(40), loc(3)]
}

/// The row's own values, but for the place that is to fail.
fn template(failing: Option<usize>) -> [Operand; 4] {
    let others = [int(37), text(b"RIG2"), int(41), loc(4)];
    let mut template = values();
    if let Some(place) = failing {
        template[place] = others[place];
    }
    template
}
