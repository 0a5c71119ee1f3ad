//! The processor time of the calling thread, which leaves out the time of others on a shared machine.

use std::time::Duration;

/// `struct timespec` of Linux on 64 bits.
#[repr(C)]
#[derive(Default)]
struct TimeSpec {
    seconds: i64,
    nanoseconds: i64,
}

extern "C" {
    fn clock_gettime(clock: i32, time: *mut TimeSpec) -> i32;
}

/// The clock of the calling thread, by Linux's number.
const CLOCK_THREAD_CPUTIME_ID: i32 = 3;

/// The processor time of this thread since it began.
fn thread_time() -> Duration {
    let mut time = TimeSpec::default();
    // SAFETY: the one thing written is the struct lent.
    let failed = unsafe { clock_gettime(CLOCK_THREAD_CPUTIME_ID, &mut time) };
    assert_eq!(failed, 0, "Linux has a clock for each thread");
    Duration::new(time.seconds as u64, time.nanoseconds as u32)
}

/// Does some work, and gives what it returns with the thread time that it took.
pub fn timed<T>(work: impl FnOnce() -> T) -> (T, Duration) {
    let start = thread_time();
    let result = work();
    (result, thread_time() - start)
}

#[cfg(test)]
mod tests {
    use super::*;

    #[test]
    fn sleep_is_no_work() {
        let (_, asleep) = timed(|| std::thread::sleep(Duration::from_millis(50)));
        assert!(asleep < Duration::from_millis(40), "{asleep:?}");
    }

    #[test]
    fn work_takes_time() {
        let sum = |end: u64| timed(|| (0..end).fold(0u64, |sum, number| std::hint::black_box(sum ^ number)));
        let (_, short) = sum(1000);
        let (_, long) = sum(10_000_000);
        assert!(long > short, "{long:?} and {short:?}");
    }
}
