//! The proved code, with the feature `proved`, which links it.

pub mod calls;
mod foreign;

use crate::nets::Files;

pub const LINKED: bool = cfg!(feature = "proved");

/// The proved code on the net of two files.
#[derive(Clone, Copy)]
pub struct Proved<'a> {
    tables: &'a [u8],
    program: &'a [u8],
}

/// None where it is not linked.
pub fn on(files: &Files) -> Option<Proved<'_>> {
    LINKED.then_some(Proved { tables: &files.tables, program: &files.program })
}

impl Proved<'_> {
    /// The sum over the answers of so many chains, by `step`.
    pub fn steps(self, kind: u8, turns: u64) -> u64 {
        let (t, p) = (self.tables, self.program);
        // SAFETY: each pointer goes with the length of its own slice, and the call keeps none.
        unsafe { foreign::bench_steps(t.as_ptr(), t.len(), p.as_ptr(), p.len(), kind, turns) }
    }

    /// The sum over the answers of one chain and the net that it leaves.
    pub fn left(self, kind: u8) -> u64 {
        let (t, p) = (self.tables, self.program);
        // SAFETY: as above.
        unsafe { foreign::bench_left(t.as_ptr(), t.len(), p.as_ptr(), p.len(), kind) }
    }

    /// So many runs by `run_bytes`: the sum over their counts and the net that the last one left.
    pub fn bytes(self, picks: &[u8], turns: u64) -> u64 {
        let (t, p) = (self.tables, self.program);
        let (list, n) = (picks.as_ptr(), picks.len());
        // SAFETY: as above.
        unsafe { foreign::bench_bytes(t.as_ptr(), t.len(), p.as_ptr(), p.len(), list, n, turns) }
    }

    /// The same by `run`, whose lists have 100,000 picks at most.
    pub fn runs(self, picks: &[u8], turns: u64) -> u64 {
        let (t, p) = (self.tables, self.program);
        let (list, n) = (picks.as_ptr(), picks.len());
        // SAFETY: as above.
        unsafe { foreign::bench_runs(t.as_ptr(), t.len(), p.as_ptr(), p.len(), list, n, turns) }
    }

    /// So many tests of soundness on the net that runs begin with.
    pub fn tests(self, turns: u64) -> u64 {
        let (t, p) = (self.tables, self.program);
        // SAFETY: as above.
        unsafe { foreign::bench_tests(t.as_ptr(), t.len(), p.as_ptr(), p.len(), turns) }
    }
}

/// The sum over what so many loads of a file gave.
pub fn loads(file: &[u8], turns: u64) -> u64 {
    // SAFETY: the pointer goes with the length of its slice, and the call does not keep it.
    unsafe { foreign::bench_loads(file.as_ptr(), file.len(), turns) }
}

/// The same sum over one load, taken as often.
pub fn loaded(file: &[u8], turns: u64) -> u64 {
    // SAFETY: as above.
    unsafe { foreign::bench_loaded(file.as_ptr(), file.len(), turns) }
}
