//! The CPU time of this thread, from libc, which std links already.

#[repr(C)]
struct Timespec {
    seconds: i64,
    nanoseconds: i64,
}

extern "C" {
    fn clock_gettime(clock: i32, time: *mut Timespec) -> i32;
}

/// Linux's number for the clock that counts this thread's CPU time.
const CLOCK_THREAD_CPUTIME_ID: i32 = 3;

fn seconds() -> f64 {
    let mut time = Timespec { seconds: 0, nanoseconds: 0 };
    // SAFETY: the struct is libc's timespec on 64-bit Linux, and it is ours to write.
    let failed = unsafe { clock_gettime(CLOCK_THREAD_CPUTIME_ID, &mut time) };
    assert_eq!(failed, 0, "Linux has this clock");
    time.seconds as f64 + 1e-9 * time.nanoseconds as f64
}

/// The seconds that the work takes.
pub fn timed(work: impl FnOnce()) -> f64 {
    let start = seconds();
    work();
    seconds() - start
}
