//! The processor time of this thread, so that other work of the machine does not count.

#![allow(unsafe_code)]

/// Linux's `struct timespec` on 64-bit machines.
#[repr(C)]
struct Timespec {
    seconds: i64,
    nanoseconds: i64,
}

/// Linux's `CLOCK_THREAD_CPUTIME_ID`.
const THREAD_CPU_TIME: i32 = 3;

extern "C" {
    fn clock_gettime(clock: i32, time: *mut Timespec) -> i32;
}

/// Nanoseconds that this thread has run.
pub fn now() -> u64 {
    let mut time = Timespec { seconds: 0, nanoseconds: 0 };
    // Fails for an unknown clock or a bad pointer only.
    let failed = unsafe { clock_gettime(THREAD_CPU_TIME, &mut time) };
    assert_eq!(failed, 0, "clock_gettime");
    time.seconds as u64 * 1_000_000_000 + time.nanoseconds as u64
}
