//! The time that the processor spent on this thread, which does not pass while other programs run.

use std::ffi::{c_int, c_long};

#[repr(C)]
struct Time {
    seconds: i64,
    nanoseconds: c_long,
}

// std links the C library, which has it.
unsafe extern "C" {
    fn clock_gettime(clock: c_int, time: *mut Time) -> c_int;
}

// The number of the clock on Linux.
const CLOCK_THREAD_CPUTIME_ID: c_int = 3;

/// The time so far, in nanoseconds.
pub fn nanoseconds() -> f64 {
    let mut time = Time { seconds: 0, nanoseconds: 0 };
    // SAFETY: the C library writes a time of this form.
    unsafe { clock_gettime(CLOCK_THREAD_CPUTIME_ID, &raw mut time) };
    time.seconds as f64 * 1e9 + time.nanoseconds as f64
}
