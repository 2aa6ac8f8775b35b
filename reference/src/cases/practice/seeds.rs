//! Seeds for the call, and ranges of seeds whose sheets are planned and explained.

use crate::practice::LAST_SEED;

/// The seeds that the program takes end before this one.
pub const PROGRAM_SEEDS: u32 = LAST_SEED + 1;

/// The seeds after which s is 0 and 2^32 − 1: the step just reaches 2^32, and just does not.
const BEFORE_ZERO: u32 = 634_785_765;
const BEFORE_LAST: u32 = 653_637_408;

/// Seeds whose calls are tried with buffers of all lengths: the first and the last ones,
/// those around the last that the program takes and the last that a field holds, and those
/// around a power of 2. The sheet of seed 9 has no ration, that of seed 99,999 has 64.
pub const CALL_SEEDS: [u32; 22] = [
    0,
    1,
    2,
    9,
    255,
    256,
    65_535,
    65_536,
    PROGRAM_SEEDS - 2,
    PROGRAM_SEEDS - 1,
    PROGRAM_SEEDS,
    PROGRAM_SEEDS + 1,
    999_999,
    1_000_000,
    BEFORE_ZERO,
    BEFORE_LAST,
    (1 << 31) - 1,
    1 << 31,
    (1 << 31) + 1,
    1_234_567_890,
    u32::MAX - 1,
    u32::MAX,
];

/// The seeds of the program whose sheets have 64 rations and a sound placing: few of those
/// with so many rations have one.
const LARGE_PLANNED: [u32; 21] = [
    1_596, 3_295, 4_210, 5_748, 6_098, 8_243, 15_198, 21_775, 29_309, 32_203, 51_822, 52_898,
    54_436, 60_642, 65_870, 71_350, 74_970, 76_228, 78_025, 85_398, 91_158,
];

/// Ranges of seeds whose sheets are planned: the first seed and how many there are.
const RANGES: [[u32; 2]; 8] = [
    [0, 200],
    [12_300, 50],
    [54_321, 50],
    [PROGRAM_SEEDS - 100, 120],
    [BEFORE_ZERO, 1],
    [BEFORE_LAST, 1],
    [(1 << 31) - 10, 20],
    [u32::MAX - 79, 80],
];

/// All ranges, those of one seed too.
pub fn ranges() -> Vec<[u32; 2]> {
    let one = |seed| [seed, 1];
    RANGES.into_iter().chain(LARGE_PLANNED.map(one)).collect()
}

/// The seeds of a range.
pub fn seeds_in([first, count]: [u32; 2]) -> impl Iterator<Item = u32> {
    (0..count).map(move |i| first + i)
}

#[cfg(test)]
mod tests {
    use super::*;
    use crate::placing::shown_set;
    use crate::practice::practice_sheet;
    use crate::sheet::{Ration, Sheet};
    use std::collections::BTreeSet;
    use std::ops::RangeInclusive;

    fn planned_seeds() -> Vec<u32> {
        ranges().into_iter().flat_map(seeds_in).collect()
    }

    fn planned_sheets() -> Vec<Sheet> {
        planned_seeds().into_iter().map(practice_sheet).collect()
    }

    /// s as the paper has it, in numbers that are wide enough to drop nothing on the way.
    #[test]
    fn the_seeds_before_the_edges_of_a_step() {
        let next = |seed: u32| (1_664_525 * u64::from(seed) + 1_013_904_223) % (1 << 32);
        assert_eq!(next(BEFORE_ZERO), 0);
        assert_eq!(next(BEFORE_LAST), (1 << 32) - 1);
    }

    #[test]
    fn the_seeds_of_the_request_are_there() {
        let seeds = planned_seeds();
        assert_eq!(BTreeSet::from_iter(&seeds).len(), seeds.len());
        for seed in [0, 1, 2, 99_998, 99_999, 100_000, u32::MAX] {
            assert!(seeds.contains(&seed) && CALL_SEEDS.contains(&seed));
        }
        let of_program = seeds.iter().filter(|&&seed| seed < PROGRAM_SEEDS).count();
        assert!(of_program >= 300 && seeds.len() - of_program >= 100);
    }

    #[test]
    fn planned_and_held_sheets_small_and_large_are_there() {
        let sheets = planned_sheets();
        let count = |held, rations: RangeInclusive<usize>| {
            let sized = |s: &&Sheet| rations.contains(&s.rations.len());
            let counts = |s: &&Sheet| shown_set(s).is_some() == held;
            sheets.iter().filter(sized).filter(counts).count()
        };
        for held in [false, true] {
            assert!(count(held, 1..=20) > 20);
            assert!(count(held, 21..=40) > 20);
            assert!(count(held, 41..=64) > 20);
        }
        assert!(count(false, 0..=0) > 2);
        assert!(count(false, 64..=64) >= LARGE_PLANNED.len());
        assert!(count(true, 64..=64) > 2);
    }

    /// Each number that is drawn has its least and its greatest value.
    #[test]
    fn the_edges_of_the_draws_are_there() {
        let sheets = planned_sheets();
        for blowers in 1..=8 {
            assert!(sheets.iter().any(|s| s.blowers == blowers));
        }
        for wake in [0, 200] {
            assert!(sheets.iter().any(|s| s.wake == wake), "{wake}");
        }
        let rations = || sheets.iter().flat_map(|s| &s.rations);
        let window = |r: &Ration| r.last - r.first + 1;
        let edges: [fn(&Ration, u32) -> bool; 6] = [
            |r, _| r.first == 1,
            |r, _| r.first == 96,
            |r, _| r.first < 90 && r.last == r.first,
            |r, _| r.first < 90 && r.last == 96,
            |r, window| window > 40 && r.volume == 1,
            |r, window| window > 40 && r.volume == window,
        ];
        for edge in edges {
            assert!(rations().filter(|r| edge(r, window(r))).count() > 5);
        }
    }
}
