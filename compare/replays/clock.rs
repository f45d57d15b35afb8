//! The time that this thread was on a processor: what others do on the machine is not in it.

use std::time::Duration;

#[repr(C)]
struct Spec {
    seconds: i64,
    nanoseconds: i64,
}

extern "C" {
    fn clock_gettime(clock: i32, into: *mut Spec) -> i32;
}

const THREAD: i32 = 3;

pub fn now() -> Duration {
    let mut spec = Spec { seconds: 0, nanoseconds: 0 };
    assert!(unsafe { clock_gettime(THREAD, &mut spec) } == 0, "the thread has a clock");
    Duration::new(spec.seconds as u64, spec.nanoseconds as u32)
}
