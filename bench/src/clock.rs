//! The processor time of the calling thread.
use std::ffi::{c_int, c_long};

#[repr(C)]
struct Time {
    seconds: c_long,
    nanoseconds: c_long,
}

extern "C" {
    fn clock_gettime(clock: c_int, time: *mut Time) -> c_int;
}

/// Linux's number of that clock.
const CLOCK_THREAD_CPUTIME_ID: c_int = 3;

pub fn seconds() -> f64 {
    let mut time = Time {
        seconds: 0,
        nanoseconds: 0,
    };
    // SAFETY: `time` is a local with C's layout of a timespec on 64-bit Linux.
    let done = unsafe { clock_gettime(CLOCK_THREAD_CPUTIME_ID, &mut time) };
    assert_eq!(done, 0);
    time.seconds as f64 + time.nanoseconds as f64 * 1e-9
}
