//! The processor time of this thread: what it waits while others have the processor does not count.

use std::time::Duration;

#[repr(C)]
struct Timespec {
    seconds: i64,
    nanoseconds: i64,
}

extern "C" {
    fn clock_gettime(clock: i32, time: *mut Timespec) -> i32;
}

/// CLOCK_THREAD_CPUTIME_ID of Linux, on 64 bits.
const THREAD_TIME: i32 = 3;

fn now() -> Duration {
    let mut time = Timespec {
        seconds: 0,
        nanoseconds: 0,
    };
    let failed = unsafe { clock_gettime(THREAD_TIME, &mut time) };
    assert_eq!(failed, 0, "Linux has this clock");
    Duration::new(time.seconds as u64, time.nanoseconds as u32)
}

pub fn time(run: impl FnOnce()) -> Duration {
    let begun = now();
    run();
    now() - begun
}
