//! Chains of one kind.

use crate::chain::picks;
use crate::nets::kinds::{files, KINDS};
use engine::{run, sound, Done};
use generate::record::{CREATE, DELETE, INSERT, INSERT_TABLE, PARALLEL, UPDATE};

#[test]
fn nets_are_at_their_limits() {
    for kind in KINDS {
        let net = files(kind).start();
        assert!(sound(&net), "{}", kind.name);
        assert_eq!(net.nodes.len(), 128);
        assert_eq!(net.tables.len(), if kind.number == CREATE { 7 } else { 8 });
        assert_eq!(net.threads.len(), if kind.number == PARALLEL { 7 } else { 8 });
        assert_eq!(net.aliases.0.iter().flatten().flatten().count(), 56);
    }
}

#[test]
fn every_pick_is_done() {
    for kind in KINDS {
        let mut net = files(kind).start();
        let done = match kind.number {
            INSERT | INSERT_TABLE => Done { added: 1, taken: 0 },
            DELETE => Done { added: 0, taken: 1 },
            UPDATE => Done { added: 16, taken: 16 },
            _ => Done::NOTHING,
        };
        for (place, answer) in run(&mut net, &picks(kind)).into_iter().enumerate() {
            assert_eq!(answer, Ok(done), "{}, pick {place}", kind.name);
        }
    }
}
