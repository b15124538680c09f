//! The processor time of this thread, which other work on the machine does not lengthen.

#[repr(C)]
struct Time {
    seconds: i64,
    nanoseconds: i64,
}

extern "C" {
    fn clock_gettime(clock: i32, time: *mut Time) -> i32;
}

/// `CLOCK_THREAD_CPUTIME_ID` on Linux.
const THREAD_TIME: i32 = 3;

/// Seconds of processor time that this thread has used.
pub fn thread_seconds() -> f64 {
    let mut time = Time {
        seconds: 0,
        nanoseconds: 0,
    };
    // SAFETY: the C library writes one such record and keeps nothing.
    let status = unsafe { clock_gettime(THREAD_TIME, &mut time) };
    assert_eq!(status, 0, "the thread clock is not available");
    time.seconds as f64 + time.nanoseconds as f64 * 1e-9
}

#[cfg(test)]
mod tests {
    use super::*;
    use std::time::Duration;

    #[test]
    fn work_counts_and_sleep_does_not() {
        let start = thread_seconds();
        std::thread::sleep(Duration::from_millis(100));
        assert!(thread_seconds() - start < 0.05);
        let start = thread_seconds();
        let mut sum = 0u64;
        while thread_seconds() - start < 0.01 {
            sum = std::hint::black_box(sum + 1);
        }
        assert!(sum > 0);
    }
}
