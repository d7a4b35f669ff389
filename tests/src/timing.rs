//! How long something takes: by the clock, or of this thread's own time.

use std::hint::black_box;
use std::time::{Duration, Instant};

const HALF_A_SECOND: Duration = Duration::from_millis(500);

/// The seconds of the best of several runs: at least so many, and as many as
/// half a second holds. What a run gives is dropped after the time is taken.
pub fn best_seconds<T>(runs: usize, mut run: impl FnMut() -> T) -> f64 {
    let begin = Instant::now();
    let mut best = f64::INFINITY;
    let mut done = 0;
    while done < runs || begin.elapsed() < HALF_A_SECOND {
        let start = Instant::now();
        let given = black_box(run());
        best = best.min(start.elapsed().as_secs_f64());
        drop(given);
        done += 1;
    }
    best
}

/// The seconds that one call takes of this thread's time, at its best: so many
/// times, several calls are timed together, since reading the time costs some
/// too. Unlike the clock, it stands still while others have the processor.
pub fn best_thread_seconds(times: usize, calls: usize, mut call: impl FnMut()) -> f64 {
    let mut best = Duration::MAX;
    for _ in 0..times {
        let start = thread_time();
        for _ in 0..calls {
            call();
        }
        best = best.min(thread_time() - start);
    }
    best.as_secs_f64() / calls as f64
}

/// How long this thread has had the processor.
fn thread_time() -> Duration {
    // As Linux has it on machines of 64 bits; the standard library has none.
    #[repr(C)]
    #[derive(Default)]
    struct Time {
        seconds: i64,
        nanoseconds: i64,
    }
    const THREAD: i32 = 3;
    extern "C" {
        fn clock_gettime(clock: i32, time: *mut Time) -> i32;
    }
    let mut time = Time::default();
    // SAFETY: the function writes the two numbers.
    let status = unsafe { clock_gettime(THREAD, &mut time) };
    assert_eq!(status, 0);
    Duration::new(time.seconds as u64, time.nanoseconds as u32)
}
