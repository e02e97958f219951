//! The clock of the benchmarks.

#[repr(C)]
struct Timespec {
    seconds: i64,
    nanoseconds: i64,
}

extern "C" {
    fn clock_gettime(clock: i32, time: *mut Timespec) -> i32;
}

/// Linux's clock of the processor time that this thread has used.
const CLOCK_THREAD_CPUTIME_ID: i32 = 3;

/// That time in nanoseconds: other work on the machine that takes the processor away does not count.
pub fn processor_time() -> i64 {
    let mut time = Timespec { seconds: 0, nanoseconds: 0 };
    assert_eq!(unsafe { clock_gettime(CLOCK_THREAD_CPUTIME_ID, &mut time) }, 0);
    time.seconds * 1_000_000_000 + time.nanoseconds
}

/// What the clock itself takes: the median of times in which nothing is done.
pub fn clock_time() -> i64 {
    let mut times: Vec<i64> = (0..1001).map(|_| -processor_time() + processor_time()).collect();
    times.sort();
    times[times.len() / 2]
}
