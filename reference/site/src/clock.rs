//! The time that this thread has had a processor: other work on the machine adds little to it. Linux, 64
//! bits.

/// Seconds and nanoseconds, as Linux has them with 64 bits.
#[repr(C)]
struct Timespec {
    seconds: i64,
    nanoseconds: i64,
}

extern "C" {
    fn clock_gettime(clock: i32, time: *mut Timespec) -> i32;
}

/// The number of the clock that runs while this thread does.
const OF_THIS_THREAD: i32 = 3;

/// The time of this thread so far, in seconds.
pub fn thread_seconds() -> f64 {
    let mut time = Timespec {
        seconds: 0,
        nanoseconds: 0,
    };
    // SAFETY: the place is one for a time, and lent for the call alone.
    let done = unsafe { clock_gettime(OF_THIS_THREAD, &mut time) };
    assert!(done == 0, "no clock of this thread");
    time.seconds as f64 + time.nanoseconds as f64 / 1e9
}
