//! The processor time of this thread, so that work beside it counts less.
use std::time::Duration;

/// The clock of that name in Linux.
const THREAD_CPUTIME: i32 = 3;

/// The time of that clock in the C library of a 64-bit Linux.
#[repr(C)]
#[derive(Default)]
struct Time {
    seconds: i64,
    nanoseconds: i64,
}

unsafe extern "C" {
    fn clock_gettime(clock: i32, time: *mut Time) -> i32;
}

/// How long this thread has run so far.
pub fn processor_time() -> Duration {
    let mut time = Time::default();
    // SAFETY: the declaration is that of the C library, which writes one such value.
    let status = unsafe { clock_gettime(THREAD_CPUTIME, &mut time) };
    assert_eq!(status, 0, "there is no such clock");
    Duration::new(time.seconds as u64, time.nanoseconds as u32)
}
