//! Processor time, as the C library tells it. The only unsafe code here.

#[repr(C)]
#[derive(Default)]
struct TimeVal {
    seconds: i64,
    micros: i64,
}

/// The first two fields of C's `struct rusage`, and room for the others.
#[repr(C)]
#[derive(Default)]
struct Usage {
    user: TimeVal,
    system: TimeVal,
    rest: [i64; 14],
}

extern "C" {
    fn getrusage(who: i32, usage: *mut Usage) -> i32;
}

const SELF: i32 = 0;
const CHILDREN: i32 = -1;

/// The processor time of this process so far, in seconds.
pub fn own() -> f64 {
    used(SELF)
}

/// The processor time of its finished child processes so far, in seconds.
pub fn children() -> f64 {
    used(CHILDREN)
}

fn used(who: i32) -> f64 {
    let mut usage = Usage::default();
    // SAFETY: `usage` has the layout and size of Linux's `struct rusage`.
    unsafe { getrusage(who, &mut usage) };
    let seconds = |time: &TimeVal| time.seconds as f64 + time.micros as f64 / 1e6;
    seconds(&usage.user) + seconds(&usage.system)
}
