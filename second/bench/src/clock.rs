//! Processor time of this thread, so that what else the machine does counts as little as can be.

use std::ffi::{c_int, c_long};
use std::time::Duration;

/// `struct timespec` of Linux on 64 bits.
#[repr(C)]
struct Timespec {
    seconds: i64,
    nanoseconds: c_long,
}

extern "C" {
    fn clock_gettime(clock: c_int, time: *mut Timespec) -> c_int;
}

/// `CLOCK_THREAD_CPUTIME_ID` of Linux.
const THREAD_TIME: c_int = 3;

/// What the call gave, and the time that it took.
pub fn timed<T>(call: impl FnOnce() -> T) -> (T, Duration) {
    let begin = spent();
    let given = call();
    (given, spent() - begin)
}

fn spent() -> Duration {
    let mut time = Timespec { seconds: 0, nanoseconds: 0 };
    // SAFETY: the call writes one timespec to a place that is ours, and keeps nothing.
    let failed = unsafe { clock_gettime(THREAD_TIME, &mut time) };
    assert_eq!(failed, 0, "a clock of the thread's processor time");
    Duration::new(time.seconds as u64, time.nanoseconds as u32)
}
