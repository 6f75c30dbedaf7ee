//! The processor time of this thread: what other programs do in between is not in it.

#[repr(C)]
struct Timespec {
    seconds: i64,
    nanos: i64,
}

extern "C" {
    fn clock_gettime(clock: i32, time: *mut Timespec) -> i32;
}

/// Linux's number of the clock of the calling thread.
const CLOCK_THREAD_CPUTIME_ID: i32 = 3;

/// In microseconds, from some start.
pub fn now() -> f64 {
    let mut time = Timespec {
        seconds: 0,
        nanos: 0,
    };
    // The clock writes into `time` alone, which is laid out as it expects.
    let failed = unsafe { clock_gettime(CLOCK_THREAD_CPUTIME_ID, &mut time) };
    assert_eq!(failed, 0, "the clock of a thread");
    time.seconds as f64 * 1e6 + time.nanos as f64 / 1e3
}
