//! The time of a call: the median of several runs. It is the time that the processor
//! spent on it, so that waiting for other work on the machine does not count.

use std::time::Duration;

/// A time as the C library of 64-bit Linux has it.
#[repr(C)]
struct Time {
    seconds: i64,
    nanoseconds: i64,
}

/// The clock of the processor's time for this thread (CLOCK_THREAD_CPUTIME_ID).
const THREAD: i32 = 3;

extern "C" {
    fn clock_gettime(clock: i32, time: *mut Time) -> i32;
}

/// What the processor has spent on this thread so far.
fn spent() -> Duration {
    let mut time = Time {
        seconds: 0,
        nanoseconds: 0,
    };
    // the room is ours, and of the form that the call asks for
    let failed = unsafe { clock_gettime(THREAD, &mut time) };
    assert_eq!(failed, 0, "no clock of the processor's time");
    Duration::new(time.seconds as u64, time.nanoseconds as u32)
}

/// The time of a function on this work.
pub fn once<T>(work: &mut T, function: fn(&mut T)) -> Duration {
    let start = spent();
    function(work);
    spent() - start
}

/// The median time of each of the functions over so many runs, after one that
/// does not count. They take turns, so that other load on the machine falls on
/// all of them alike. `prepare` makes what a run works on and is not timed.
pub fn medians<T, const N: usize>(
    runs: usize,
    prepare: impl Fn() -> T,
    functions: [fn(&mut T); N],
) -> [Duration; N] {
    let mut times = [(); N].map(|()| Vec::with_capacity(runs));
    for turn in 0..=runs {
        for (function, times) in functions.iter().zip(&mut times) {
            let time = once(&mut prepare(), *function);
            if turn > 0 {
                times.push(time);
            }
        }
    }
    times.map(|mut times| {
        times.sort();
        times[times.len() / 2]
    })
}
