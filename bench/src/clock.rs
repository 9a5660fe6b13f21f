//! The processor time that this thread has had: what other programs take does not count.
use std::time::Duration;

#[repr(C)]
struct Spec {
    seconds: i64,
    nanoseconds: i64,
}

unsafe extern "C" {
    fn clock_gettime(clock: i32, at: *mut Spec) -> i32;
}

/// CLOCK_THREAD_CPUTIME_ID on Linux.
const THREAD: i32 = 3;

pub fn now() -> Duration {
    let mut at = Spec {
        seconds: 0,
        nanoseconds: 0,
    };
    let failed = unsafe { clock_gettime(THREAD, &mut at) };
    assert_eq!(failed, 0, "no clock");
    Duration::new(at.seconds as u64, at.nanoseconds as u32)
}
