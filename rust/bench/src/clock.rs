//! The processor time of a thread. On a machine with other work, wall time would count that too.

#![allow(unsafe_code)]

/// `struct timespec` of 64-bit Linux.
#[repr(C)]
struct Timespec {
    seconds: i64,
    nanoseconds: i64,
}

/// `CLOCK_THREAD_CPUTIME_ID` of Linux.
const THREAD: i32 = 3;

unsafe extern "C" {
    fn clock_gettime(clock: i32, time: *mut Timespec) -> i32;
}

/// The seconds that this thread has run.
pub fn seconds() -> f64 {
    let mut time = Timespec {
        seconds: 0,
        nanoseconds: 0,
    };
    // SAFETY: the C library's function, which writes one timespec, lent until it answers.
    let failed = unsafe { clock_gettime(THREAD, &mut time) };
    assert_eq!(failed, 0, "a thread has a clock");
    time.seconds as f64 + time.nanoseconds as f64 * 1e-9
}

#[cfg(test)]
mod tests {
    use super::seconds;
    use std::hint::black_box;
    use std::thread::sleep;
    use std::time::Duration;

    #[test]
    fn work_counts_and_sleep_does_not() {
        let start = seconds();
        sleep(Duration::from_millis(50));
        let slept = seconds();
        assert!(slept - start < 0.04, "{} s", slept - start);
        black_box((0..1_000_000u64).map(black_box).sum::<u64>());
        assert!(seconds() > slept);
    }
}
