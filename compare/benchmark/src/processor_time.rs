//! The clock of the benchmark: the processor's time that this thread has used. What other programs on the machine take
//! away from it is not in it.

use std::time::Duration;

/// The number of that clock on Linux.
const THREAD_CLOCK: i32 = 3;

/// A time as Linux gives it on machines of 64 bits.
#[repr(C)]
struct Time {
    seconds: i64,
    nanoseconds: i64,
}

unsafe extern "C" {
    safe fn clock_gettime(clock: i32, time: &mut Time) -> i32;
}

pub fn processor_time() -> Duration {
    let mut time = Time { seconds: 0, nanoseconds: 0 };
    assert_eq!(clock_gettime(THREAD_CLOCK, &mut time), 0, "Linux has a clock for each thread");
    Duration::new(time.seconds as u64, time.nanoseconds as u32)
}
