//! Planning with each combination of buffers, one byte or word too short, exact and longer.

use super::{plan_case, Case};
use crate::cases::bill::{dear_days, rounding_days, start_days};
use crate::cases::meals::{full_meal_days, meal_days};
use crate::cases::sheets::{
    beyond_days, document_days, full_day, limit_days, refused_by, settled_days, text,
    too_long_sheet, wide_days, FIVE_COLUMN_PLAN, SHEET_CHECKS,
};
use crate::damage::damaged_sheet;
use crate::draws::Draws;
use crate::generate::{full_sheet, held_full_sheet, held_sheet, tight_sheet, MIDDLE, SMALL};
use crate::listing::{PLACING_WORDS, PLAN_BUFFER};
use crate::sheet::{LINE, MOST_RATIONS, MOST_SLOTS};

pub fn cases() -> Vec<Case> {
    let mut cases = Vec::new();
    for lines in document_days() {
        cases.extend(all_buffers(&text(&lines)));
    }
    cases.extend(all_buffers(&text(&full_day())));
    for lines in beyond_days() {
        cases.extend(all_buffers(&text(&lines)));
    }
    for lines in [meal_days(), rounding_days(), wide_days()].concat() {
        cases.extend(exact_buffers(&text(&lines)));
    }
    for number in SHEET_CHECKS {
        for (i, sheet) in refused_by(number).iter().enumerate() {
            match i {
                0 => cases.extend(all_buffers(sheet)),
                _ => cases.extend(exact_buffers(sheet)),
            }
        }
    }
    cases.push(plan_case(b'P', &[PLAN_BUFFER], &too_long_sheet()));
    let large_days = [
        limit_days(),
        settled_days(),
        full_meal_days(),
        start_days(),
        dear_days(),
    ];
    for lines in large_days.concat() {
        cases.extend(exact_buffers(&text(&lines)));
    }
    cases.extend(generated_cases());
    cases
}

fn generated_cases() -> Vec<Case> {
    let mut draws = Draws::new(31);
    let mut cases = Vec::new();
    for _ in 0..4 {
        cases.extend(all_buffers(&tight_sheet(&mut draws, SMALL).text()));
        cases.extend(all_buffers(&held_sheet(&mut draws, SMALL).text()));
    }
    for _ in 0..12 {
        cases.extend(exact_buffers(&tight_sheet(&mut draws, MIDDLE).text()));
        cases.extend(exact_buffers(&held_sheet(&mut draws, MIDDLE).text()));
        cases.extend(exact_buffers(&damaged_sheet(&mut draws, MIDDLE)));
    }
    for _ in 0..6 {
        cases.extend(exact_buffers(&full_sheet(&mut draws).text()));
        cases.extend(exact_buffers(&held_full_sheet(&mut draws).text()));
    }
    cases
}

/// Each operation with buffers as long as they must be.
fn exact_buffers(sheet: &[u8]) -> Vec<Case> {
    vec![
        plan_case(b'P', &[PLAN_BUFFER], sheet),
        plan_case(b'G', &[PLACING_WORDS], sheet),
        plan_case(b'B', &[PLAN_BUFFER, PLACING_WORDS], sheet),
        plan_case(b'N', &[], sheet),
    ]
}

/// Each operation with buffers of length 0, one too short, exact, one longer and more, and
/// with plan buffers that lack the line of the bill, or that were long enough for lines of
/// five columns. A placing buffer is counted in words:
/// to tell this from a count of bytes, there are placing buffers with as many words as 96
/// bytes make and with a word for each byte of 96 words, and a plan buffer of 96 bytes.
fn all_buffers(sheet: &[u8]) -> Vec<Case> {
    let listings = [
        0,
        MOST_WORDS,
        FIVE_COLUMN_PLAN,
        PLAN_BUFFER - LINE,
        PLAN_BUFFER - 1,
        PLAN_BUFFER,
        PLAN_BUFFER + 1,
        LONGER,
    ];
    let placings = [
        0,
        PLACING_WORDS / WORD,
        PLACING_WORDS - 1,
        PLACING_WORDS,
        PLACING_WORDS + 1,
        PLACING_WORDS * WORD,
        MOST_WORDS,
    ];
    let mut cases = vec![plan_case(b'N', &[], sheet)];
    cases.extend(listings.map(|length| plan_case(b'P', &[length], sheet)));
    cases.extend(placings.map(|length| plan_case(b'G', &[length], sheet)));
    for listing in [PLAN_BUFFER - 1, PLAN_BUFFER, PLAN_BUFFER + 1, LONGER] {
        for placing in [PLACING_WORDS - 1, PLACING_WORDS, PLACING_WORDS + 100] {
            cases.push(plan_case(b'B', &[listing, placing], sheet));
        }
    }
    cases.push(plan_case(b'B', &[PLACING_WORDS, MOST_WORDS], sheet));
    cases
}

/// A plan buffer longer than it must be: the most that the gate program has room for.
pub const LONGER: usize = 39_000;
/// A placing buffer with a word for each ration and slot: the most words that the gate
/// program has room for. As a plan buffer's length in bytes it is too short.
pub const MOST_WORDS: usize = (MOST_RATIONS * MOST_SLOTS) as usize;
/// Bytes of a word.
const WORD: usize = 8;
