//! Days by the program's whole output: those of document 01, days with several meals for
//! a tank, days with a charge in each hour or near a half, days with great tanks and wake
//! costs, and each refusal as they are written, days at the limits by digest. Then generated
//! sheets of all sizes, planned with both buffers: `D number line length`, the digest of the
//! listing and that of the placing buffer. The payload is a sheet.

use super::bill::{dear_days, hour_days, rounding_days, start_days};
use super::meals::{full_meal_days, meal_days};
use super::shares::Share;
use super::sheets::{
    beyond_days, document_days, full_day, limit_days, refused_by, settled_days, text,
    too_long_sheet, wide_days, SHEET_CHECKS,
};
use super::{digest, digest_words, lent_buffer, lent_words, Case};
use crate::draws::Draws;
use crate::generate::{full_sheet, held_full_sheet, FULL, MIDDLE, SMALL};
use crate::listing::{plan, program, PLACING_WORDS, PLAN_BUFFER};

/// How many generated sheets there are.
const SHARES: [Share; 3] = [
    Share {
        limits: SMALL,
        any: 1_000,
        tight: 150,
        jagged: 0,
        damaged: 60,
    },
    Share {
        limits: MIDDLE,
        any: 500,
        tight: 150,
        jagged: 0,
        damaged: 30,
    },
    Share {
        limits: FULL,
        any: 300,
        tight: 100,
        jagged: 0,
        damaged: 10,
    },
];

/// How many sheets have the most slots and rations, and how many more of them are
/// held.
const FULL_SHEETS: u32 = 60;
const HELD_FULL_SHEETS: u32 = 40;

/// Sheets whose whole output is written: the days of document 01, those with several
/// meals, small ones for the bill, those for six columns, and those that each check refuses.
fn small_sheets() -> Vec<Vec<u8>> {
    let days = [
        document_days(),
        meal_days(),
        hour_days(),
        rounding_days(),
        wide_days(),
        beyond_days(),
    ]
    .concat();
    let days = days.iter().map(|lines| text(lines));
    let refused = SHEET_CHECKS.into_iter().flat_map(refused_by);
    days.chain(refused).collect()
}

/// Sheets at the limits, and the longest that are refused.
fn large_sheets() -> Vec<Vec<u8>> {
    let days = [
        limit_days(),
        settled_days(),
        full_meal_days(),
        start_days(),
        dear_days(),
        vec![full_day()],
    ]
    .concat();
    let mut sheets: Vec<Vec<u8>> = days.iter().map(|lines| text(lines)).collect();
    sheets.push(too_long_sheet());
    sheets
}

/// The sheets that are tried on the program itself.
pub fn program_sheets() -> Vec<Vec<u8>> {
    [small_sheets(), large_sheets()].concat()
}

/// All cases of this gate program.
pub fn cases() -> Vec<Case> {
    let written = small_sheets().into_iter().map(|s| Case::new(b'T', 0, s));
    let digested = large_sheets().into_iter().map(|s| Case::new(b'O', 0, s));
    written.chain(digested).chain(generated_cases()).collect()
}

fn generated_cases() -> Vec<Case> {
    let mut draws = Draws::new(41);
    let mut sheets = Vec::new();
    for share in SHARES {
        sheets.extend(share.sheets(&mut draws));
    }
    for _ in 0..FULL_SHEETS {
        sheets.push(full_sheet(&mut draws).text());
    }
    for _ in 0..HELD_FULL_SHEETS {
        sheets.push(held_full_sheet(&mut draws).text());
    }
    let case = |sheet| Case::new(b'D', 0, sheet);
    sheets.into_iter().map(case).collect()
}

/// The output expected for these cases.
pub fn output(cases: &[Case]) -> Vec<u8> {
    cases.iter().flat_map(answer).collect()
}

fn answer(case: &Case) -> Vec<u8> {
    match case.operation {
        b'T' => program(&case.payload),
        b'O' => digested(&case.payload).into_bytes(),
        b'D' => planned(&case.payload).into_bytes(),
        operation => panic!("no operation {operation}"),
    }
}

/// Number, line and length of the program's output, and the digest of a buffer that has
/// it at its front.
fn digested(sheet: &[u8]) -> String {
    let (number, line, _) = plan(sheet, None, None);
    let output = program(sheet);
    let mut buffer = lent_buffer(PLAN_BUFFER);
    buffer[..output.len()].copy_from_slice(&output);
    format!("O {number} {line} {} {}\n", output.len(), digest(&buffer))
}

/// `D number line length`, the digest of the listing and that of the placing buffer.
pub fn planned(sheet: &[u8]) -> String {
    let (mut listing, mut placing) = (lent_buffer(PLAN_BUFFER), lent_words(PLACING_WORDS));
    let (number, line, length) = plan(sheet, Some(&mut listing), Some(&mut placing));
    let (listing, placing) = (digest(&listing[..length]), digest_words(&placing));
    format!("D {number} {line} {length} {listing} {placing}\n")
}

#[cfg(test)]
mod tests {
    use super::*;
    use crate::cases::assert_streamed;
    use crate::placing::shown_set;
    use crate::sheet::{read, Ration, Sheet};

    #[test]
    fn the_stream_holds_the_cases() {
        assert_streamed(&cases(), 2_500_000);
    }

    #[test]
    fn planned_and_held_sheets_of_all_sizes_are_there() {
        let sheets: Vec<_> = generated_cases()
            .iter()
            .flat_map(|c| read(&c.payload))
            .collect();
        let count = |held, rations: usize| {
            let large = |s: &&Sheet| s.rations.len() >= rations;
            let counts = |s: &&Sheet| shown_set(s).is_some() == held;
            sheets.iter().filter(large).filter(counts).count()
        };
        assert!(sheets.len() >= 2_000);
        for held in [false, true] {
            assert!(count(held, 0) > 500);
            assert!(count(held, 32) > 50);
            assert!(count(held, 64) > 20);
        }
        let whole_day = |s: &&Sheet| {
            let whole = |r: &Ration| r.first == 1 && r.last == s.slots;
            s.rations.len() == 64 && s.rations.iter().all(whole)
        };
        assert!(sheets.iter().filter(whole_day).count() > 12);
    }

    #[test]
    fn planned_and_held_sheets_have_several_meals() {
        let sheets: Vec<_> = generated_cases()
            .iter()
            .flat_map(|c| read(&c.payload))
            .collect();
        let next = |pair: &[Ration]| pair[0].tank == pair[1].tank;
        let touching = |pair: &[Ration]| next(pair) && pair[0].last + 1 == pair[1].first;
        let three = |meals: &[Ration]| meals[0].tank == meals[2].tank;
        for held in [false, true] {
            let sheets: Vec<&Sheet> = sheets
                .iter()
                .filter(|s| shown_set(s).is_some() == held)
                .collect();
            let count = |size: usize, has: &dyn Fn(&[Ration]) -> bool| {
                let has = |s: &&&Sheet| s.rations.windows(size).any(has);
                sheets.iter().filter(has).count()
            };
            assert!(count(2, &next) > 150);
            assert!(count(2, &touching) > 100);
            assert!(count(3, &three) > 50);
        }
    }
}
