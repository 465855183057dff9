//! Time that this thread has run. Where others share the machine, the time of
//! day counts them too.

#[repr(C)]
struct Time {
    seconds: i64,
    nanoseconds: i64,
}

extern "C" {
    fn clock_gettime(clock: i32, time: *mut Time) -> i32;
}

/// Linux's number of the clock of one thread.
const THREAD: i32 = 3;

/// In seconds.
pub fn now() -> f64 {
    let mut time = Time {
        seconds: 0,
        nanoseconds: 0,
    };
    // It writes the record, whose form on 64-bit Linux this is.
    let answer = unsafe { clock_gettime(THREAD, &mut time) };
    assert_eq!(answer, 0, "no clock of the thread");
    time.seconds as f64 + time.nanoseconds as f64 * 1e-9
}
