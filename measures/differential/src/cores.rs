//! The places of a run dealt out to all cores.

use crate::calls::Checked;
use std::ops::Range;
use std::sync::atomic::{AtomicU64, Ordering::Relaxed};
use std::thread;
use std::time::Instant;

/// A line says how far the run is after each so many places.
const PROGRESS: u64 = 2_500;

/// Makes a check at every place of a range, up to the first that fails. Each core has its own
/// buffers and counts, in a value that `new` makes; gives these.
pub fn check_all<T: Send>(
    what: &str,
    places: Range<u64>,
    new: impl Fn() -> T + Sync,
    check: impl Fn(u64, &mut T) -> Checked + Sync,
) -> Result<Vec<T>, String> {
    let start = Instant::now();
    let (next, done) = (AtomicU64::new(places.start), AtomicU64::new(0));
    let work = || {
        let mut own = new();
        loop {
            let place = next.fetch_add(1, Relaxed);
            if place >= places.end {
                return Ok(own);
            }
            check(place, &mut own).inspect_err(|_| {
                // The other cores are left no place.
                next.store(places.end, Relaxed);
            })?;
            let done = done.fetch_add(1, Relaxed) + 1;
            if done.is_multiple_of(PROGRESS) {
                eprintln!("{done} {what}, {:.0} s", start.elapsed().as_secs_f64());
            }
        }
    };
    let cores = thread::available_parallelism().map_or(1, |cores| cores.get());
    thread::scope(|scope| {
        let threads: Vec<_> = (0..cores).map(|_| scope.spawn(work)).collect();
        let ends = threads.into_iter().map(|thread| thread.join());
        ends.map(|end| end.expect("a thread ends with an answer"))
            .collect()
    })
}

#[cfg(test)]
mod tests {
    use super::*;

    #[test]
    fn every_place_is_checked_once() {
        let add = |place, sum: &mut (u64, u64)| {
            *sum = (sum.0 + 1, sum.1 + place);
            Ok(())
        };
        let sums = check_all("places", 5..1_005, || (0, 0), add).unwrap();
        let count: u64 = sums.iter().map(|sum| sum.0).sum();
        let sum: u64 = sums.iter().map(|sum| sum.1).sum();
        assert_eq!((count, sum), (1_000, (5..1_005).sum()));
    }

    #[test]
    fn a_failure_ends_the_run() {
        let fail = |place, _: &mut ()| match place {
            7 => Err("seven".to_string()),
            _ => Ok(()),
        };
        let endless = 0..u64::MAX / 2;
        let ended = check_all("places", endless, || (), fail);
        assert_eq!(ended, Err("seven".to_string()));
    }
}
