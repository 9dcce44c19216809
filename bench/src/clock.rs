//! The processor time of this thread: what other programs take from the processor does not count.

use std::time::Duration;

#[repr(C)]
#[derive(Default)]
struct Time {
    seconds: i64,
    nanoseconds: i64,
}

/// Linux's number of the clock.
const THREAD_TIME: i32 = 3;

extern "C" {
    fn clock_gettime(clock: i32, time: *mut Time) -> i32;
}

pub fn now() -> Duration {
    let mut time = Time::default();
    // SAFETY: the time is ours to be written, in the form of 64-bit Linux.
    let failed = unsafe { clock_gettime(THREAD_TIME, &mut time) };
    assert_eq!(failed, 0, "no clock of the thread's processor time");
    Duration::new(time.seconds as u64, time.nanoseconds as u32)
}
