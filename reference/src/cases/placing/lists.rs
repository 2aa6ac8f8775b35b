//! The starred days, every set of slots and all small bounds of small days, faulty
//! sheets and faulty lists.

use super::{bounds_case, shortfall_case, Case};
use crate::cases::meals::{full_meal_days, meal_days, touching_day};
use crate::cases::sheets::{
    beyond_days, day_of, document_days, first_day, held_day, idle_first_day, limit_days,
    refused_by, settled_days, text, too_long_sheet, Lines, SHEET_CHECKS,
};
use crate::sheet::MOST_WAKE;

pub fn shortfall_cases() -> Vec<Case> {
    let mut cases = Vec::new();
    let short_days = meal_days().into_iter().filter(|lines| slots(lines) == 4);
    for lines in document_days().into_iter().chain(short_days) {
        for marks in all_lists(slots(&lines), &[0, 1]) {
            cases.push(shortfall_case(&text(&lines), &marks));
        }
    }
    for lines in [limit_days(), settled_days(), full_meal_days()].concat() {
        cases.push(shortfall_case(&text(&lines), &vec![1; slots(&lines)]));
    }
    for lines in settled_days() {
        let every_other: Vec<u8> = (0..96).map(|t| u8::from(t % 2 == 0)).collect();
        cases.push(shortfall_case(&text(&lines), &every_other));
        cases.push(shortfall_case(&text(&lines), &[0; 96]));
    }
    for sheet in refused_sheets() {
        cases.push(shortfall_case(&sheet, &[0, 0, 0, 1]));
        // Refusals of the sheet come before 11.
        cases.push(shortfall_case(&sheet, &[0, 0, 0, 2]));
        cases.push(shortfall_case(&sheet, &[0, 0, 0]));
        cases.push(shortfall_case(&sheet, &[]));
    }
    cases.push(shortfall_case(&too_long_sheet(), &[1; 96]));
    for lines in days_for_lists() {
        let (day, sheet) = (slots(&lines), text(&lines));
        for length in wrong_lengths(day) {
            cases.push(shortfall_case(&sheet, &vec![1; length]));
        }
        for at in [0, day / 2, day - 1] {
            for mark in [2, 3, 10, 32, 48, 49, 128, 129, 254, 255] {
                let mut marks = vec![1; day];
                marks[at] = mark;
                cases.push(shortfall_case(&sheet, &marks));
            }
        }
        // Marks of 2 only before and only behind the day's length.
        cases.push(shortfall_case(&sheet, &[vec![1; day], vec![2]].concat()));
        cases.push(shortfall_case(&sheet, &[vec![2], vec![1; day]].concat()));
    }
    cases
}

pub fn bounds_cases() -> Vec<Case> {
    let mut cases = Vec::new();
    let named = [
        ([1, 1, 0], [1, 1, 1]),
        ([0, 1, 0], [0, 0, 1]),
        ([0, 1, 0], [0, 1, 0]),
        ([0, 0, 0], [0, 0, 0]),
        ([0, 0, 0], [1, 1, 1]),
    ];
    for (lows, highs) in named {
        cases.push(bounds_case(&text(&idle_first_day()), &lows, &highs));
    }
    // All bounds up to one above the blowers, or up to the blowers, on days of three
    // slots and one blower.
    for (lines, values) in [
        (idle_first_day(), &[0, 1, 2][..]),
        (held_day(), &[0, 1]),
        (day_of(3, 1, 0, &[[1, 3, 2]]), &[0, 1]),
    ] {
        for lows in all_lists(3, values) {
            for highs in all_lists(3, values) {
                cases.push(bounds_case(&text(&lines), &lows, &highs));
            }
        }
    }
    // On the first day all lows that some high leaves open, and the other way round.
    for bound in all_lists(4, &[0, 1, 2]) {
        cases.push(bounds_case(&text(&first_day()), &bound, &[2; 4]));
        cases.push(bounds_case(&text(&first_day()), &[0; 4], &bound));
        cases.push(bounds_case(&text(&first_day()), &bound, &bound));
        // Of two meals each keeps to its own window.
        cases.push(bounds_case(&text(&touching_day()), &bound, &[2; 4]));
        cases.push(bounds_case(&text(&touching_day()), &[0; 4], &bound));
        cases.push(bounds_case(&text(&touching_day()), &bound, &bound));
    }
    for lines in [document_days(), meal_days()].concat() {
        let (day, m, sheet) = (slots(&lines), lines[0][1], text(&lines));
        for (low, high) in [(0, m), (m, m), (0, m + 1), (0, m - 1), (1, m)] {
            cases.push(bounds_case(&sheet, &vec![low; day], &vec![high; day]));
        }
    }
    for lines in [limit_days(), settled_days(), full_meal_days()].concat() {
        let (day, m, sheet) = (slots(&lines), lines[0][1], text(&lines));
        for (low, high) in [(0, m), (1, m)] {
            cases.push(bounds_case(&sheet, &vec![low; day], &vec![high; day]));
        }
    }
    for sheet in refused_sheets() {
        cases.push(bounds_case(&sheet, &[0; 4], &[2; 4]));
        // Refusals of the sheet come before 11.
        cases.push(bounds_case(&sheet, &[0; 3], &[2; 4]));
        cases.push(bounds_case(&sheet, &[0; 4], &[2; 5]));
        cases.push(bounds_case(&sheet, &[], &[]));
    }
    for lines in days_for_lists() {
        let (day, sheet) = (slots(&lines), text(&lines));
        for length in wrong_lengths(day) {
            cases.push(bounds_case(&sheet, &vec![0; length], &vec![8; day]));
            cases.push(bounds_case(&sheet, &vec![0; day], &vec![8; length]));
            cases.push(bounds_case(&sheet, &vec![0; length], &vec![8; length]));
        }
        // Together as long as two lists of the day's length.
        cases.push(bounds_case(&sheet, &vec![0; day - 1], &vec![8; day + 1]));
        cases.push(bounds_case(&sheet, &vec![0; day + 1], &vec![8; day - 1]));
        for at in [0, day / 2, day - 1] {
            for value in LARGE {
                let mut list = vec![0; day];
                list[at] = value;
                // A low is not cut, a high is.
                cases.push(bounds_case(&sheet, &list, &vec![8; day]));
                cases.push(bounds_case(&sheet, &list, &list));
                cases.push(bounds_case(&sheet, &vec![0; day], &list));
                let highs: Vec<u32> = list.iter().map(|&v| v.max(1)).collect();
                cases.push(bounds_case(&sheet, &vec![0; day], &highs));
            }
        }
        cases.push(bounds_case(&sheet, &vec![0; day], &vec![u32::MAX; day]));
        cases.push(bounds_case(
            &sheet,
            &vec![u32::MAX; day],
            &vec![u32::MAX; day],
        ));
    }
    cases
}

/// Values above every number of blowers, also those that a narrower number would
/// take for small ones.
const LARGE: [u32; 9] = [
    3,
    8,
    9,
    256,
    65_537,
    1 << 31,
    (1 << 31) + 1,
    u32::MAX - 1,
    u32::MAX,
];

/// Days on which the lists are at fault: of one slot, of a few and of the most.
fn days_for_lists() -> Vec<Lines> {
    vec![
        day_of(1, 1, MOST_WAKE, &[[1, 1, 1]]),
        day_of(2, 2, 0, &[]),
        first_day(),
        held_day(),
        day_of(96, 8, 0, &[[1, 96, 96], [96, 96, 1]]),
    ]
}

/// Lengths that no list of a day of so many slots has.
fn wrong_lengths(day: usize) -> Vec<usize> {
    let lengths = [0, 1, day - 1, day + 1, 2 * day, 96, 97];
    lengths
        .into_iter()
        .filter(|&length| length != day)
        .collect()
}

/// Sheets that the checks of a sheet refuse.
fn refused_sheets() -> Vec<Vec<u8>> {
    let beyond = beyond_days().iter().map(|lines| text(lines)).collect();
    let refused = SHEET_CHECKS.into_iter().map(refused_by);
    refused.chain([beyond]).flatten().collect()
}

fn slots(lines: &Lines) -> usize {
    lines[0][0] as usize
}

/// All lists of a length with entries among the values.
fn all_lists<T: Copy>(length: usize, values: &[T]) -> Vec<Vec<T>> {
    let mut lists = vec![vec![]];
    for _ in 0..length {
        let longer = |list: &Vec<T>| -> Vec<Vec<T>> {
            let with = |&value| [&list[..], &[value]].concat();
            values.iter().map(with).collect()
        };
        lists = lists.iter().flat_map(longer).collect();
    }
    lists
}
