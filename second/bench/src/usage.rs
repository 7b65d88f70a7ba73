//! Processor time of programs that this one has started.

use std::ffi::{c_int, c_long};
use std::time::Duration;

/// `struct timeval` of Linux on 64 bits.
#[repr(C)]
#[derive(Clone, Copy, Default)]
struct Timeval {
    seconds: i64,
    microseconds: c_long,
}

/// `struct rusage` of Linux on 64 bits.
#[repr(C)]
#[derive(Default)]
struct Usage {
    user: Timeval,
    system: Timeval,
    others: [c_long; 14],
}

extern "C" {
    fn getrusage(who: c_int, usage: *mut Usage) -> c_int;
}

/// `RUSAGE_CHILDREN`: all those that have ended.
const CHILDREN: c_int = -1;

/// User and system time.
pub fn of_children() -> Duration {
    let mut usage = Usage::default();
    // SAFETY: the call writes one rusage to a place that is ours, and keeps nothing.
    let failed = unsafe { getrusage(CHILDREN, &mut usage) };
    assert_eq!(failed, 0, "the time of the programs started");
    duration(usage.user) + duration(usage.system)
}

fn duration(time: Timeval) -> Duration {
    Duration::new(time.seconds as u64, 1_000 * time.microseconds as u32)
}
