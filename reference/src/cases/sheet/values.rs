//! Sheets in good form whose values are accepted, or at fault by checks 3 to 9; where a
//! tank is that of the line before, by check 13, of which there is more in `meals`.

use crate::cases::sheets::{first_day, full_day, full_day_tank, held_day, wide_days, with, Lines};
use crate::sheet::{MOST_TANK, MOST_WAKE};

/// The sheets whose values are good, or at fault by checks 3 to 9 and 13 alone.
pub fn value_sheets() -> Vec<Lines> {
    let mut sheets = vec![first_day(), held_day(), full_day()];
    sheets.push(vec![[3, 1, 4, 0]]);
    sheets.push(vec![[1, 1, 0, 0]]);
    sheets.push(vec![[96, 8, MOST_WAKE, 0]]);
    sheets.push(vec![[1, 1, MOST_WAKE, 1], [1, 1, 1, 1]]);
    sheets.push(vec![[96, 8, MOST_WAKE, 1], [MOST_TANK, 1, 96, 96]]);
    let last_two = [[MOST_TANK - 1, 96, 96, 1], [MOST_TANK, 1, 96, 1]];
    sheets.push([vec![[96, 8, MOST_WAKE, 2]], last_two.to_vec()].concat());
    sheets.extend(wide_days());

    // Checks 3, 4 and 5: at the limit and beyond it; also with a digit in every column, where
    // fewer columns would hold a good number.
    for slots in [
        0, 3, 4, 5, 95, 96, 97, 256, 352, 65_536, 99_999, 100_004, 111_196, 999_999,
    ] {
        sheets.push(with(first_day(), 0, 0, slots));
    }
    for slots in [0, 1, 96, 97] {
        sheets.push(vec![[slots, 1, 1, 0]]);
    }
    for blowers in [0, 1, 8, 9, 256, 264, 65_537, 99_999, 100_002, 999_998] {
        sheets.push(with(first_day(), 0, 1, blowers));
    }
    for wake in [
        0, 199, 200, 201, 256, 1_999, 2_000, 2_001, 2_002, 12_000, 65_536, 67_536, 99_999, 100_000,
        102_000, 999_999,
    ] {
        sheets.push(with(first_day(), 0, 2, wake));
    }

    // Check 6: the number of rations against the lines.
    for n in [
        0, 1, 2, 4, 64, 65, 256, 259, 65_539, 99_999, 100_003, 999_993,
    ] {
        sheets.push(with(first_day(), 0, 3, n));
    }
    sheets.push(with(full_day(), 0, 3, 63));
    sheets.push(with(full_day(), 0, 3, 65));
    let mut one_more = full_day();
    one_more[64][0] = MOST_TANK - 1;
    one_more.push([MOST_TANK, 1, 1, 1]);
    sheets.push(one_more.clone());
    sheets.push(with(one_more, 0, 3, 65));
    sheets.push(vec![[4, 2, 2, 1]]);

    // Checks 7, 8 and 9 on the first, a middle and the last ration line.
    for line in 1..=3 {
        let tank_before = if line == 1 { 0 } else { line as u32 - 1 };
        for tank in [
            0,
            tank_before,
            999,
            1_000,
            1_001,
            9_999,
            10_000,
            65_535,
            65_536,
            65_537,
            99_999,
            100_000,
            100_001,
            131_073,
            MOST_TANK - 1,
            MOST_TANK,
            MOST_TANK + 1,
            262_145,
            512_000,
            999_999,
        ] {
            sheets.push(with(first_day(), line, 0, tank));
        }
        for first in [0, 1, 2, 3, 4, 5, 65_537, 99_999, 100_001, 999_999] {
            sheets.push(with(first_day(), line, 1, first));
        }
        for last in [0, 1, 2, 3, 4, 5, 96, 260, 65_540, 99_999, 100_004, 999_999] {
            sheets.push(with(first_day(), line, 2, last));
        }
        let [_, first, last, _] = first_day()[line];
        let window = last - first + 1;
        for volume in [
            0,
            1,
            window,
            window + 1,
            96,
            65_537,
            99_999,
            100_001,
            999_999,
        ] {
            sheets.push(with(first_day(), line, 3, volume));
        }
    }
    let tank = full_day_tank;
    for (line, field, value) in [
        (64, 0, MOST_TANK + 1),
        (64, 0, tank(63)),
        (64, 0, tank(63) - 1),
        (33, 0, tank(32)),
        (33, 0, tank(32) - 1),
        (33, 0, tank(33) + 1),
        (33, 0, tank(34)),
        (41, 0, tank(40) - 1),
        (50, 0, 99_999),
        (50, 0, 100_000),
        (50, 0, tank(49) - 1),
        (64, 2, 97),
        (64, 1, 0),
        (64, 3, 0),
        (64, 3, 97),
        (33, 3, 0),
    ] {
        sheets.push(with(full_day(), line, field, value));
    }
    let mut falling = first_day();
    falling.swap(1, 3);
    sheets.push(falling);
    sheets.push(vec![[4, 2, 2, 2], [5, 1, 2, 2], [5, 1, 2, 2]]);
    sheets.push(vec![[4, 2, 2, 3], [1, 1, 2, 2], [3, 1, 4, 2], [2, 2, 3, 1]]);

    sheets.extend(paired_faults());
    sheets
}

/// Sheets with several faults, which show the order of the checks.
pub fn paired_faults() -> Vec<Lines> {
    let good = first_day();
    let head = |slots, blowers, wake, n| {
        let mut lines = first_day();
        lines[0] = [slots, blowers, wake, n];
        lines
    };
    let mut sheets = vec![
        head(0, 0, 2, 3),
        head(97, 9, 2_001, 65),
        head(97, 2, 2_001, 3),
        head(97, 2, 2, 65),
        head(4, 9, 2_001, 3),
        head(4, 0, 2, 4),
        head(4, 2, 2_001, 4),
        head(4, 2, 2_001, 65),
    ];
    // 3 to 6 in the head line with 7 below it.
    for lines in [
        head(97, 2, 2, 3),
        head(4, 9, 2, 3),
        head(4, 2, 2_001, 3),
        head(4, 2, 2, 2),
        head(4, 2, 2, 65),
    ] {
        sheets.push(with(lines, 1, 0, 0));
    }
    // Two of 7, 8 and 9 on one line, then on two lines in both orders.
    let faults: [(usize, u32); 3] = [(0, 0), (1, 0), (3, 0)];
    for (i, &(field, value)) in faults.iter().enumerate() {
        for (j, &(other_field, other_value)) in faults.iter().enumerate() {
            if i < j {
                for line in 1..=3 {
                    let one = with(good.clone(), line, field, value);
                    sheets.push(with(one, line, other_field, other_value));
                }
            }
            for (line, later) in [(1, 2), (2, 3), (1, 3)] {
                let one = with(good.clone(), line, field, value);
                sheets.push(with(one, later, other_field, other_value));
            }
        }
    }
    // All three on one line; a bad window whose length would be below zero; a
    // volume that is too long for a window that ends past the day.
    let two = with(with(good.clone(), 2, 0, 1), 2, 2, 5);
    sheets.push(with(two, 2, 3, 9));
    sheets.push(with(with(good.clone(), 1, 1, 4), 1, 2, 1));
    sheets.push(with(with(good.clone(), 3, 2, 5), 3, 3, 5));
    // The tank after a faulty tank is not reached.
    sheets.push(with(with(good, 1, 0, MOST_TANK), 2, 0, MOST_TANK + 1));
    sheets
}
