//! Times, and what is said of them.

use std::time::Duration;

/// Seconds and nanoseconds, as C has them on 64-bit Linux.
#[repr(C)]
struct Timespec {
    seconds: i64,
    nanoseconds: i64,
}

extern "C" {
    fn clock_gettime(clock: i32, time: *mut Timespec) -> i32;
}

/// Linux's number for the clock of the running thread.
const THREAD_CLOCK: i32 = 3;

/// The processor time of this thread. Other programs on the machine add nothing to it
/// but what they take from the caches and the clock rate.
fn processor_time() -> Duration {
    let mut time = Timespec {
        seconds: 0,
        nanoseconds: 0,
    };
    // SAFETY: the pointer is that of a time to be written.
    let status = unsafe { clock_gettime(THREAD_CLOCK, &mut time) };
    assert_eq!(status, 0, "Linux has this clock");
    Duration::new(time.seconds as u64, time.nanoseconds as u32)
}

/// The processor time of a call.
pub fn time(call: impl FnOnce()) -> Duration {
    let start = processor_time();
    call();
    processor_time() - start
}

pub fn micros(time: Duration) -> f64 {
    time.as_secs_f64() * 1e6
}

/// A list's element at a part of it, from 0 to 1, once sorted.
fn quantile(sorted: &[Duration], part: f64) -> Duration {
    sorted[((sorted.len() - 1) as f64 * part).round() as usize]
}

/// Times of many sheets, sorted.
pub struct Times(Vec<Duration>);

impl Times {
    pub fn of(mut times: Vec<Duration>) -> Self {
        times.sort();
        Times(times)
    }

    /// In microseconds.
    pub fn median(&self) -> f64 {
        micros(quantile(&self.0, 0.5))
    }

    /// Median, 99th percentile and worst as cells of a table, in microseconds.
    pub fn cells(&self) -> String {
        let [median, high, worst] = [0.5, 0.99, 1.0].map(|part| micros(quantile(&self.0, part)));
        match median < 1000.0 {
            true => format!("{median:.1} | {high:.1} | {worst:.1}"),
            false => format!("{median:.0} | {high:.0} | {worst:.0}"),
        }
    }
}

/// The least and the greatest of some numbers, and the one in the middle.
pub fn spread(mut numbers: Vec<f64>) -> [f64; 3] {
    numbers.sort_by(f64::total_cmp);
    let last = numbers.len() - 1;
    [numbers[0], numbers[last / 2], numbers[last]]
}
