//! The picks of a chain. Crate `bench` has the same.

use crate::nets::kinds::Kind;
use engine::Pick;
use generate::record::{PARALLEL, SEQUENTIAL};

/// Nodes 1 to 126, so that the thread goes on; of loops four, each 16 rounds of two picks and one
/// pick more.
pub fn picks(kind: Kind) -> Vec<Pick> {
    match kind.number {
        SEQUENTIAL | PARALLEL => (0..132).map(|place| loop_pick(kind, place % 33)).collect(),
        _ => vec![Pick { thread: 0, row: 0 }; 126],
    }
}

/// The fork of a parallel loop is thread 7.
fn loop_pick(kind: Kind, place: u8) -> Pick {
    let body = kind.number == PARALLEL && place % 2 == 1;
    Pick { thread: if body { 7 } else { 0 }, row: place / 2 }
}
