//! Sheets at fault by checks 1 and 2: lengths, bytes, fields, columns and closing bytes.

use super::{find_case, read_case, Case};
use crate::cases::meals::one_tank_day;
use crate::cases::sheets::{
    day_of_lines, first_day, full_day, in_five_columns, text, wide_days, with, Lines,
    FIVE_COLUMN_LINE,
};
use crate::sheet::{line_text, FIELD, LINE, LONGEST_SHEET, MOST_TANK, MOST_WAKE};

pub fn length_cases() -> Vec<Case> {
    let long_sheet = |n: usize, lines: usize| {
        let mut bytes = line_text([96, 8, MOST_WAKE, n as u32]).to_vec();
        for i in 1..lines as u32 {
            bytes.extend(line_text([i, 1, 2, 1]));
        }
        bytes
    };
    let day = text(&first_day());
    let mut lengths = vec![0, 1, FIELD];
    for lines in 1..=4 {
        lengths.extend([lines * LINE - 1, lines * LINE, lines * LINE + 1]);
        // Whole lines of five columns, and of seven.
        lengths.extend([lines * FIVE_COLUMN_LINE, lines * (LINE + 4)]);
    }
    let shorter = lengths.into_iter().filter(|&length| length < day.len());
    let mut cases: Vec<Case> = shorter.map(|length| read_case(&day[..length])).collect();
    for tail in [&b"\n"[..], b" ", b"     ", &[0; LINE - 1], &[0; LINE]] {
        cases.push(read_case([&day, tail].concat()));
    }
    cases.push(read_case(text(&[[4, 2, 2, 0]])));
    cases.push(read_case(text(&full_day()[..64])));

    // As many whole lines as pass check 1, one more, and all bytes that pass its limit, which
    // are no whole lines.
    let longest_lines = LONGEST_SHEET / LINE;
    let longest = long_sheet(longest_lines - 1, longest_lines);
    let beyond = long_sheet(longest_lines, longest_lines + 1);
    let mut fault_in_last_line = long_sheet(64, longest_lines);
    fault_in_last_line[LINE * longest_lines - 3] = b'x';
    cases.push(find_case(5, &longest[..]));
    cases.push(read_case(&beyond[..LONGEST_SHEET]));
    cases.push(read_case(longest));
    cases.push(read_case(beyond));
    cases.push(read_case(fault_in_last_line));
    cases
}

/// Each odd byte in each column of each line, the closing one included; also where every
/// column of a field has a digit.
pub fn byte_cases() -> Vec<Case> {
    let wide_day = vec![[96, 8, MOST_WAKE, 1], [MOST_TANK, 10, 95, 11]];
    let mut cases = Vec::new();
    for bytes in [text(&first_day()), text(&wide_day)] {
        for at in 0..bytes.len() {
            for odd in [0, 9, 10, 13, 32, 43, 45, 47, 48, 57, 58, 128, 255] {
                let mut changed = bytes.clone();
                changed[at] = odd;
                cases.push(read_case(changed));
            }
        }
    }
    cases
}

/// Fields in good form and in others: of which the first column decides, or the second, or
/// the last.
const FIELD_FORMS: [&[u8; FIELD]; 36] = [
    b"      ", b"000000", b"     0", b"0     ", b"    01", b" 1  2 ", b"1    2", b"1     ",
    b"    1 ", b"     1", b"000001", b"    00", b"     2", b"    10", b"999999", b"100000",
    b"100001", b"000010", b"010000", b"001000", b" 99999", b"099999", b" 01000", b"99999 ",
    b"250000", b"250001", b"25000 ", b"2 0000", b"    -1", b"    +1", b"   1.0", b"   0x1",
    b"\t    1", b"     \n", b"\n     ", b"-00001",
];

pub fn field_cases() -> Vec<Case> {
    let bytes = text(&first_day());
    let mut cases = Vec::new();
    for form in FIELD_FORMS {
        for line in [0, 1, 3] {
            for field in 0..4 {
                let at = line * LINE + field * FIELD;
                let mut changed = bytes.clone();
                changed[at..at + FIELD].copy_from_slice(form);
                cases.push(read_case(changed));
            }
        }
    }
    cases
}

/// Lines whose columns are not those of four fields of six: a number of seven digits, which
/// takes a column of the field beside it; a line a byte longer, or shorter; a line of five
/// columns, filled up to the length of six; and whole sheets in five columns, some of which are
/// as long as whole lines of six.
pub fn column_cases() -> Vec<Case> {
    let bytes = text(&first_day());
    let mut cases = Vec::new();
    for line in [0, 2, 3] {
        let with_line = |new: &[u8]| {
            let (before, after) = (&bytes[..line * LINE], &bytes[(line + 1) * LINE..]);
            read_case([before, new, after].concat())
        };
        let own = &bytes[line * LINE..(line + 1) * LINE];
        for field in 0..4 {
            for digits in [&b"1000000"[..], b"2500000", b"0000001", b"      1"] {
                // Over the end of the field before, and over the start of the field after.
                for at in [(field * FIELD).checked_sub(1), Some(field * FIELD)] {
                    let Some(at) = at.filter(|at| at + digits.len() < LINE) else {
                        continue;
                    };
                    let mut wide = own.to_vec();
                    wide[at..at + digits.len()].copy_from_slice(digits);
                    cases.push(with_line(&wide));
                }
            }
            let at = field * FIELD;
            cases.push(with_line(&[&own[..at], b" ", &own[at..]].concat()));
            cases.push(with_line(&[&own[..at], &own[at + 1..]].concat()));
        }
        let five = in_five_columns(&first_day()[line..=line]);
        let (fields, end) = five.split_at(FIVE_COLUMN_LINE - 1);
        cases.push(with_line(&[fields, b"    ", end].concat()));
        cases.push(with_line(&[b"    ", fields, end].concat()));
        cases.push(with_line(&[fields, end, b"    "].concat()));
        cases.push(with_line(&five));
    }
    let days = [vec![first_day(), one_tank_day(), full_day()], wide_days()].concat();
    for lines in days {
        cases.push(read_case(in_five_columns(&lines)));
    }
    for lines in [1, 2, 24, 25, 26, 50] {
        let old = in_five_columns(&day_of_lines(lines));
        cases.push(find_case(1, &old[..]));
        cases.push(read_case(old));
    }
    cases
}

/// Faulty fields together with other faults: check 2 comes first and names the
/// first faulty line, also beyond the n-th ration.
pub fn form_fault_cases() -> Vec<Case> {
    let spoilt = |lines: &Lines, places: &[usize]| {
        let mut bytes = text(lines);
        for &at in places {
            bytes[at] = b'x';
        }
        read_case(bytes)
    };
    // The closing byte of a line, and the last column of a field, counted from 1.
    let end = |line: usize| line * LINE - 1;
    let last_column = |line: usize, field: usize| (line - 1) * LINE + field * FIELD - 1;
    let day = first_day();
    let mut cases = vec![
        spoilt(&with(day.clone(), 0, 0, 97), &[last_column(4, 1)]),
        spoilt(&with(day.clone(), 0, 0, 0), &[end(4)]),
        spoilt(&with(day.clone(), 0, 1, 9), &[last_column(3, 2)]),
        spoilt(&with(day.clone(), 0, 2, 2_001), &[last_column(2, 3)]),
        spoilt(&with(day.clone(), 0, 3, 2), &[3 * LINE]),
        spoilt(&with(day.clone(), 0, 3, 1), &[last_column(4, 4)]),
        spoilt(&with(day.clone(), 0, 3, 0), &[end(4)]),
        spoilt(&with(day.clone(), 1, 0, 0), &[last_column(4, 1)]),
        spoilt(&day, &[last_column(1, 1)]),
        spoilt(&day, &[last_column(1, 1), last_column(4, 1)]),
        spoilt(&day, &[last_column(3, 1), last_column(4, 1)]),
        spoilt(&day, &[end(2), LINE * 2]),
        spoilt(&day, &[end(3), LINE]),
        spoilt(&day, &[end(1)]),
        spoilt(&day, &[end(2)]),
        spoilt(&day, &[end(3)]),
        spoilt(&day, &[end(4)]),
        spoilt(&full_day(), &[last_column(65, 1)]),
        spoilt(&full_day(), &[end(65)]),
        spoilt(&full_day(), &[40 * LINE + 2 * FIELD, last_column(65, 1)]),
    ];
    // A line moved by one byte, and a sheet with two bytes for a line's end.
    let bytes = text(&day);
    let mut moved = bytes.clone();
    moved.rotate_left(1);
    cases.push(read_case(moved));
    let two_byte_ends: Vec<u8> = bytes
        .iter()
        .flat_map(|&b| if b == b'\n' { vec![b'\r', b] } else { vec![b] })
        .collect();
    cases.push(read_case(two_byte_ends));
    cases
}
