//! Cases for the causes of stretches: `C` calls with a buffer of the length that the
//! payload's first part names, and gives the buffer's digest; `Y` calls with a buffer as
//! long as it must be and gives the whole listing; `W` gives what the program `why` writes.

mod days;
mod generated;

use super::bill::start_days;
use super::meals::{full_meal_days, meal_days};
use super::sheets::{
    beyond_days, document_days, full_day, held_day, limit_days, refused_by, settled_days, text,
    too_long_sheet, wide_days, with, SHEET_CHECKS,
};
use super::{digest, lent_buffer, numbers_of, text_of, Case};
use crate::causes::{causes, entries, why, CAUSES_BUFFER};
use crate::sheet::read;
use days::{cause_days, CUT_DAYS, WHOLE_DAYS};
pub use days::{long_day, LongDay};
use std::collections::BTreeSet;

/// The longest buffer that is lent: the most that the gate program has room for.
pub const LONGER: usize = 70_000;

/// Lengths of lent buffers: none, one byte too short, exact, one byte longer and more.
const LENGTHS: [usize; 5] = [
    0,
    CAUSES_BUFFER - 1,
    CAUSES_BUFFER,
    CAUSES_BUFFER + 1,
    LONGER,
];

/// Sheets with two faults, of which the earlier check's is named.
fn faulty_twice() -> Vec<Vec<u8>> {
    let days = [
        vec![[97, 9, 2_001, 65]],
        vec![[96, 9, 2_001, 65]],
        vec![[96, 8, 2_001, 65]],
        // A tank, a window, a volume, an early meal, each of them on a day that is held.
        with(with(held_day(), 2, 0, 0), 2, 1, 0),
        with(with(held_day(), 2, 1, 0), 2, 3, 4),
        with(with(held_day(), 2, 0, 1), 2, 3, 3),
        with(held_day(), 2, 0, 1),
    ];
    days.iter().map(|lines| text(lines)).collect()
}

/// Sheets whose whole listing is written.
fn small_sheets() -> Vec<Vec<u8>> {
    let days = [
        document_days(),
        meal_days(),
        wide_days(),
        cause_days(),
        beyond_days(),
    ]
    .concat();
    let mut sheets: Vec<Vec<u8>> = days.iter().map(|lines| text(lines)).collect();
    sheets.extend(SHEET_CHECKS.into_iter().flat_map(refused_by));
    sheets.extend(faulty_twice());
    sheets
}

/// Sheets at the limits, and the longest that are refused.
fn large_sheets() -> Vec<Vec<u8>> {
    let days = [
        limit_days(),
        settled_days(),
        full_meal_days(),
        start_days(),
        WHOLE_DAYS.map(long_day).to_vec(),
        CUT_DAYS.map(long_day).to_vec(),
        vec![full_day()],
    ]
    .concat();
    let mut sheets: Vec<Vec<u8>> = days.iter().map(|lines| text(lines)).collect();
    sheets.push(too_long_sheet());
    sheets
}

/// The sheets that are tried on the program itself, besides those of the first program.
pub fn program_sheets() -> Vec<Vec<u8>> {
    let days = [cause_days(), WHOLE_DAYS.map(long_day).to_vec()];
    let days = [&days.concat()[..], &CUT_DAYS.map(long_day)].concat();
    days.iter().map(|lines| text(lines)).collect()
}

/// All cases of this gate program.
pub fn cases() -> Vec<Case> {
    let mut cases = Vec::new();
    for sheet in small_sheets() {
        cases.push(Case::new(b'Y', 0, sheet.clone()));
        cases.push(Case::new(b'W', 0, sheet));
    }
    for long in [WHOLE_DAYS[0], CUT_DAYS[1]] {
        cases.push(Case::new(b'Y', 0, text(&long_day(long))));
        cases.push(Case::new(b'W', 0, text(&long_day(long))));
    }
    for sheet in lent_sheets() {
        cases.extend(LENGTHS.map(|length| call_case(length, &sheet)));
    }
    for sheet in large_sheets() {
        cases.push(call_case(CAUSES_BUFFER, &sheet));
    }
    cases.extend(generated::cases());
    cases
}

/// Sheets that are tried with buffers of all lengths: planned, held, refused by each
/// number, and with listings that are cut or nearly so.
fn lent_sheets() -> Vec<Vec<u8>> {
    let days = [document_days(), cause_days(), vec![full_day()]].concat();
    let mut sheets: Vec<Vec<u8>> = days.iter().map(|lines| text(lines)).collect();
    for number in SHEET_CHECKS {
        sheets.extend(refused_by(number).into_iter().take(1));
    }
    sheets.extend(faulty_twice());
    for long in [WHOLE_DAYS[0], CUT_DAYS[0], CUT_DAYS[1], CUT_DAYS[3]] {
        sheets.push(text(&long_day(long)));
    }
    sheets
}

/// A case that lends a buffer of this length.
fn call_case(length: usize, sheet: &[u8]) -> Case {
    Case::in_parts(b'C', &text_of(&[length as u32]), sheet)
}

/// The length of the buffer that a case lends, and the sheet.
fn lent_and_sheet(case: &Case) -> (usize, &[u8]) {
    match case.operation {
        b'C' => {
            let (first, sheet) = case.parts();
            let [length] = numbers_of(first)[..] else {
                panic!("one buffer is lent");
            };
            (length as usize, sheet)
        }
        b'Y' | b'W' => (CAUSES_BUFFER, &case.payload),
        other => panic!("no operation {other}"),
    }
}

/// The output expected for these cases.
pub fn output(cases: &[Case]) -> Vec<u8> {
    cases.iter().flat_map(answer).collect()
}

fn answer(case: &Case) -> Vec<u8> {
    let (lent, sheet) = lent_and_sheet(case);
    if case.operation == b'W' {
        return why(sheet);
    }
    let mut buffer = lent_buffer(lent);
    let (number, line, length, cut) = causes(sheet, &mut buffer);
    let cut = u32::from(cut);
    let operation = case.operation as char;
    let mut output = format!("{operation} {number} {line} {length} {cut}\n").into_bytes();
    match case.operation {
        b'C' => output.extend(format!("D {}\n", digest(&buffer)).into_bytes()),
        _ => output.extend(&buffer[..length]),
    }
    output
}

/// How many entries the listings of these cases have before a cut, by whether the stretch
/// is busy and by the cause's number. A sheet is counted once.
pub fn entries_by_cause(cases: &[Case]) -> [[usize; 4]; 2] {
    let calls = cases.iter().map(lent_and_sheet);
    let accepted = calls.filter(|&(lent, _)| lent >= CAUSES_BUFFER);
    let sheets: BTreeSet<&[u8]> = accepted.map(|(_, sheet)| sheet).collect();
    let mut counts = [[0; 4]; 2];
    for sheet in sheets.into_iter().flat_map(read) {
        for entry in entries(&sheet).unwrap_or_default() {
            counts[usize::from(entry.busy)][entry.cause as usize] += 1;
        }
    }
    counts
}

#[cfg(test)]
mod tests {
    use super::*;
    use crate::cases::assert_streamed;
    use crate::cases::sheets::first_day;
    use crate::sheet::field_text;

    #[test]
    fn the_stream_holds_the_cases() {
        assert_streamed(&cases(), 1_500_000);
    }

    /// Where a case asks for more, the gate program answers nothing.
    #[test]
    fn no_case_lends_more_than_the_program_has_room_for() {
        assert!(cases().iter().all(|case| lent_and_sheet(case).0 <= LONGER));
    }

    /// An idle stretch has cause 1 or 3, a busy one cause 2: no other applies to a day
    /// planned alone.
    #[test]
    fn every_cause_is_there() {
        let [[_, idle_1, idle_2, idle_3], [_, busy_1, busy_2, busy_3]] = entries_by_cause(&cases());
        assert!(idle_1 > 1_000, "{idle_1}");
        assert!(idle_3 > 1_000, "{idle_3}");
        assert!(busy_2 > 1_000, "{busy_2}");
        assert_eq!([idle_2, busy_1, busy_3], [0, 0, 0]);
    }

    #[test]
    fn every_number_is_shown() {
        let small = |case: &&Case| case.payload.len() < 400;
        let cases = cases();
        let answers: Vec<Vec<u8>> = cases.iter().filter(small).map(answer).collect();
        for number in [0, 1, 2, 3, 4, 5, 6, 7, 8, 9, 10, 12, 13] {
            for operation in ["C", "Y"] {
                if operation == "Y" && number == 10 {
                    continue;
                }
                let start = format!("{operation} {number} ").into_bytes();
                assert!(answers.iter().any(|a| a.starts_with(&start)), "{number}");
            }
            if number != 0 && number != 10 {
                let start = [b"HELD\n", &field_text(number)[..]].concat();
                assert!(answers.iter().any(|a| a.starts_with(&start)), "{number}");
            }
        }
    }

    #[test]
    fn the_first_day_and_the_held_day_are_answered() {
        let (first, held) = (text(&first_day()), text(&held_day()));
        let listing: Vec<u8> = text(&[
            [2, 2, 1, 3],
            [1, 0, 0, 0],
            [2, 0, 0, 0],
            [3, 0, 0, 0],
            [2, 3, 2, 1],
            [4, 0, 0, 0],
            [1, 0, 1, 1],
            [1, 0, 0, 0],
        ]);
        let whole = [b"Y 0 0 200 0\n", &listing[..]].concat();
        assert_eq!(answer(&Case::new(b'Y', 0, &first[..])), whole);
        assert_eq!(answer(&Case::new(b'W', 0, &first[..])), listing);
        assert_eq!(answer(&Case::new(b'Y', 0, &held[..])), b"Y 12 0 0 0\n");
        let output = b"HELD\n    12     1     2     1\n     2     0     0     0\n";
        assert_eq!(answer(&Case::new(b'W', 0, &held[..])), output);
        for length in LENGTHS {
            let mut buffer = lent_buffer(length);
            let number = if length < CAUSES_BUFFER { 10 } else { 12 };
            let expected = format!("C {number} 0 0 0\nD {}\n", digest(&buffer));
            assert_eq!(answer(&call_case(length, &held)), expected.as_bytes());
            if length >= CAUSES_BUFFER {
                buffer[..listing.len()].copy_from_slice(&listing);
                let expected = format!("C 0 0 200 0\nD {}\n", digest(&buffer));
                assert_eq!(answer(&call_case(length, &first)), expected.as_bytes());
            }
        }
    }
}
