//! Damage to the bytes of generated sheets.

use crate::draws::Draws;
use crate::generate::{any_sheet, Sizes};
use crate::sheet::{field_text, field_value, line_text, FIELD, LINE};

/// Bytes that a fault in a field may show.
const ODD_BYTES: [u8; 14] = [0, 9, 10, 13, 32, 43, 45, 47, 48, 49, 57, 58, 128, 255];

/// Values at and beyond the limits of the fields.
const ODD_VALUES: [u32; 23] = [
    0, 1, 2, 8, 9, 63, 64, 65, 96, 97, 200, 201, 999, 1_000, 1_999, 2_000, 2_001, 65_536, 99_999,
    100_000, 250_000, 250_001, 999_999,
];

/// The least number that no field holds.
const TOO_WIDE: u32 = 10_u32.pow(FIELD as u32);

/// Damages a sheet's bytes in one place: a byte, the length, a field, the order of lines,
/// a meal or the columns. The damage may happen to leave a good sheet.
pub fn damage(draws: &mut Draws, bytes: &mut Vec<u8>) {
    let lines = bytes.len() / LINE;
    if lines == 0 {
        bytes.push(draws.below(256) as u8);
        return;
    }
    match draws.below(11) {
        0 => {
            let at = draws.index(bytes.len());
            bytes[at] = ODD_BYTES[draws.index(ODD_BYTES.len())];
        }
        1 => {
            let at = draws.index(bytes.len());
            bytes[at] = draws.below(256) as u8;
        }
        2 => {
            let cut = draws.index(bytes.len());
            bytes.truncate(cut);
        }
        3 => {
            for _ in 0..draws.between(1, 2 * LINE as u32) {
                bytes.push(ODD_BYTES[draws.index(ODD_BYTES.len())]);
            }
        }
        4 | 5 => {
            let value = ODD_VALUES[draws.index(ODD_VALUES.len())];
            let line = match draws.one_in(4) {
                true => 0,
                false => draws.index(lines),
            };
            put_field(bytes, line, draws.index(4), value);
        }
        6 => {
            let (a, b) = (draws.index(lines) * LINE, draws.index(lines) * LINE);
            for i in 0..LINE {
                bytes.swap(a + i, b + i);
            }
        }
        7 => {
            let at = draws.index(lines) * LINE;
            if draws.one_in(2) {
                bytes.drain(at..at + LINE);
            } else {
                let values = [0; 4].map(|_: u32| ODD_VALUES[draws.index(ODD_VALUES.len())]);
                bytes.splice(at..at, line_text(values));
            }
        }
        8 if draws.one_in(4) => *bytes = five_columns(bytes),
        8 => shift_columns(draws, bytes),
        _ => damage_meal(draws, bytes),
    }
}

/// The whole lines of a sheet as they were before request 110: a column less in each field,
/// so that the first one is lost.
pub fn five_columns(bytes: &[u8]) -> Vec<u8> {
    let lines = bytes.chunks_exact(LINE);
    let old_line = |line: &[u8]| -> Vec<u8> {
        let (fields, end) = line.split_at(LINE - 1);
        let old_fields = fields.chunks(FIELD).flat_map(|field| &field[1..]);
        old_fields.chain(end).copied().collect()
    };
    lines.flat_map(old_line).collect()
}

/// Takes a byte out of a line and puts a blank or a digit in elsewhere, so that the columns
/// between the two are moved by one.
fn shift_columns(draws: &mut Draws, bytes: &mut Vec<u8>) {
    let line = draws.index(bytes.len() / LINE) * LINE;
    bytes.remove(line + draws.index(LINE));
    let byte = b"  01"[draws.index(4)];
    bytes.insert(line + draws.index(LINE), byte);
}

/// Sets a line's tank, or its first slot, near to what the line before has there: the
/// tank before, or the one below or above it; the last slot before, or the one after it.
/// So the line becomes a meal too early, one at the earliest, or a tank out of order.
pub fn damage_meal(draws: &mut Draws, bytes: &mut [u8]) {
    let lines = bytes.len() / LINE;
    if lines < 3 {
        return;
    }
    let line = 2 + draws.index(lines - 2);
    let before = |field: usize| {
        let at = (line - 1) * LINE + field * FIELD;
        field_value(&bytes[at..at + FIELD]).unwrap_or(0)
    };
    let (tank, last) = (before(0), before(2));
    match draws.below(4) {
        0 => put_field(bytes, line, 0, (tank + 1).saturating_sub(draws.below(3))),
        1 => put_field(bytes, line, 0, tank),
        2 => put_field(bytes, line, 1, last + draws.below(2)),
        _ => {
            put_field(bytes, line, 0, tank);
            put_field(bytes, line, 1, last + draws.below(2));
        }
    }
}

/// Puts a number, cut to what a field holds, into a field of a line, both counted from 0.
fn put_field(bytes: &mut [u8], line: usize, field: usize, value: u32) {
    let at = line * LINE + field * FIELD;
    bytes[at..at + FIELD].copy_from_slice(&field_text(value % TOO_WIDE));
}

/// The bytes of a sheet, damaged in one to three places.
pub fn damaged_sheet(draws: &mut Draws, limits: Sizes) -> Vec<u8> {
    let mut bytes = any_sheet(draws, limits).text();
    for _ in 0..draws.between(1, 3) {
        damage(draws, &mut bytes);
    }
    bytes
}

#[cfg(test)]
mod tests {
    use super::*;
    use crate::generate::{FULL, SMALL};
    use crate::sheet::read;

    #[test]
    fn five_columns_by_hand() {
        let bytes = [
            line_text([4, 2, 200, 1]),
            line_text([250_000, 1, 99_999, 2]),
        ]
        .concat();
        let old = b"    4    2  200    1\n50000    199999    2\n";
        assert_eq!(five_columns(&bytes), old);
        assert_eq!(five_columns(&bytes[..LINE - 1]), b"");
    }

    /// Whatever a sheet held, in five columns it is refused: by its length or, where whole
    /// lines of six columns are as long, because its first line has no closing byte.
    #[test]
    fn no_sheet_in_five_columns_is_read() {
        let mut draws = Draws::new(10);
        let mut numbers = [0; 3];
        for _ in 0..1_000 {
            let old = five_columns(&any_sheet(&mut draws, FULL).text());
            let refusal = read(&old).expect_err("five columns");
            let expected = if old.len().is_multiple_of(LINE) {
                (2, 1)
            } else {
                (1, 0)
            };
            assert_eq!((refusal.number, refusal.line), expected);
            numbers[refusal.number as usize] += 1;
        }
        assert!(numbers[1] > 900 && numbers[2] > 10, "{numbers:?}");
    }

    /// Every refusal of a sheet is there, and some sheets that are good all the same.
    #[test]
    fn every_number_is_there() {
        let mut draws = Draws::new(11);
        let mut numbers = [0; 14];
        for _ in 0..2_000 {
            let number = read(&damaged_sheet(&mut draws, SMALL)).map_or_else(|r| r.number, |_| 0);
            numbers[number as usize] += 1;
        }
        for number in [0, 1, 2, 3, 4, 5, 6, 7, 8, 9, 13] {
            assert!(numbers[number] > 5, "{number}: {numbers:?}");
        }
    }
}
