//! Generated sheets of all kinds, most of them with a buffer as long as it must be.

use super::days::long_day;
use super::{call_case, Case, LENGTHS};
use crate::cases::shares::Share;
use crate::cases::sheets::{text, Lines};
use crate::causes::CAUSES_BUFFER;
use crate::draws::Draws;
use crate::generate::{full_sheet, held_full_sheet, jagged_full_sheet, FULL, MIDDLE, SMALL};

/// How many generated sheets there are.
const SHARES: [Share; 3] = [
    Share {
        limits: SMALL,
        any: 150,
        tight: 50,
        jagged: 150,
        damaged: 40,
    },
    Share {
        limits: MIDDLE,
        any: 80,
        tight: 50,
        jagged: 100,
        damaged: 20,
    },
    Share {
        limits: FULL,
        any: 60,
        tight: 40,
        jagged: 100,
        damaged: 10,
    },
];

/// How many sheets have the most slots and rations: of all kinds, jagged, and held.
const FULL_SHEETS: u32 = 20;
const JAGGED_FULL_SHEETS: u32 = 60;
const HELD_FULL_SHEETS: u32 = 8;

/// How many generated sheets are near to a long day.
const NEARLY_LONG_SHEETS: u32 = 40;

pub fn cases() -> Vec<Case> {
    let mut draws = Draws::new(51);
    let mut sheets = Vec::new();
    for share in SHARES {
        sheets.extend(share.sheets(&mut draws));
    }
    for _ in 0..FULL_SHEETS {
        sheets.push(full_sheet(&mut draws).text());
    }
    for _ in 0..JAGGED_FULL_SHEETS {
        sheets.push(jagged_full_sheet(&mut draws).text());
    }
    for _ in 0..HELD_FULL_SHEETS {
        sheets.push(held_full_sheet(&mut draws).text());
    }
    for _ in 0..NEARLY_LONG_SHEETS {
        sheets.push(text(&nearly_long_day(&mut draws)));
    }
    let mut lengths = Draws::new(52);
    let case = |sheet: &Vec<u8>| {
        let length = match lengths.below(10) {
            0 => LENGTHS[lengths.index(LENGTHS.len())],
            _ => CAUSES_BUFFER,
        };
        call_case(length, sheet)
    };
    sheets.iter().map(case).collect()
}

/// A long day in which some rations have another window or volume, so that sets differ
/// from entry to entry. It may be held.
fn nearly_long_day(draws: &mut Draws) -> Lines {
    let blowers = draws.between(2, 8);
    let stops = draws.between(3, 64 / blowers - 2);
    let v = 95 - 2 * stops - draws.below(6);
    let mut lines = long_day(([blowers, v, stops, draws.between(1, blowers)], None));
    for [_, first, last, volume] in &mut lines[1..] {
        if draws.one_in(10) {
            *first = (*first).saturating_sub(draws.below(3)).max(1);
            *last = (*last + draws.below(3)).min(96);
            *volume = (*volume + draws.below(2)).min(*last - *first + 1);
        }
    }
    lines
}
