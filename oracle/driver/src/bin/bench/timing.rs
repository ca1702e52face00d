//! The clock: how much of the processor's time calls take, and the middle of many times.
//! Time in which another program had the processor is not counted, so that the machine
//! can be shared.

use std::hint::black_box;
use std::time::Duration;

/// What the C library's `clock_gettime` fills in.
#[repr(C)]
struct Timespec {
    seconds: i64,
    nanoseconds: i64,
}

/// This thread's own time, by the number that Linux has for it.
const THREAD_TIME: i32 = 3;

extern "C" {
    fn clock_gettime(clock: i32, now: *mut Timespec) -> i32;
}

/// How long this thread has run.
fn now() -> Duration {
    let mut now = Timespec {
        seconds: 0,
        nanoseconds: 0,
    };
    // Safe: it writes the two numbers of a place that is there.
    let told = unsafe { clock_gettime(THREAD_TIME, &mut now) };
    assert_eq!(told, 0, "the thread's clock can be read");
    Duration::new(now.seconds as u64, now.nanoseconds as u32)
}

/// How long so many calls take, the freeing of their answers with them.
pub fn timed<A>(times: usize, mut call: impl FnMut(usize) -> A) -> Duration {
    let begun = now();
    for k in 0..times {
        drop(black_box(call(k)));
    }
    now() - begun
}

pub fn median(mut times: Vec<Duration>) -> f64 {
    times.sort();
    times[times.len() / 2].as_secs_f64()
}
