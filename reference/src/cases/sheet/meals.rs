//! Sheets with several meals for a tank, accepted or at fault by check 13, alone and
//! together with the checks before it.

use crate::cases::meals::{meal_days, one_tank_day, three_meals_day, touching_day};
use crate::cases::sheets::{with, Lines};
use crate::sheet::{MOST_TANK, MOST_WAKE};

/// The sheets whose meals are good, or at fault by checks 7, 8, 9 and 13.
pub fn meal_sheets() -> Vec<Lines> {
    let mut sheets = meal_days();
    // After a meal in the slots 1 to 2: every window, for a tank below, the same and above.
    for tank in [4, 5, 6] {
        for first in 0..=5 {
            for last in 0..=5 {
                sheets.push(vec![[4, 2, 2, 2], [5, 1, 2, 1], [tank, first, last, 1]]);
            }
        }
    }
    // Tanks at the limits, each twice; a tank again after another one.
    for tanks in [
        [1, 1, 1],
        [999, 999, 1_000],
        [65_535, 65_536, 65_536],
        [99_999, 100_000, 100_000],
        [MOST_TANK - 1, MOST_TANK, MOST_TANK],
        [MOST_TANK, MOST_TANK, MOST_TANK],
        [0, 0, 0],
        [MOST_TANK + 1, MOST_TANK + 1, MOST_TANK + 1],
        [MOST_TANK, MOST_TANK, MOST_TANK + 1],
        [MOST_TANK, MOST_TANK, MOST_TANK - 1],
        [100_000, 100_000, 99_999],
        [5, 6, 5],
        [5, 5, 6],
        [5, 6, 6],
        [6, 5, 5],
        [5, 5, 4],
    ] {
        let mut lines = three_meals_day();
        for (line, tank) in lines[1..].iter_mut().zip(tanks) {
            line[0] = tank;
        }
        sheets.push(lines);
    }
    // Only the window before counts, and only that of the same tank.
    sheets.push(with(three_meals_day(), 3, 1, 6));
    sheets.push(with(three_meals_day(), 3, 1, 5));
    sheets.push(with(with(three_meals_day(), 3, 1, 1), 3, 2, 4));
    sheets.push(with(with(three_meals_day(), 2, 0, 6), 3, 0, 7));
    sheets.push(with(touching_day(), 3, 0, 5));
    // The most meals, and a fault in the first that can have one, a middle one and the last.
    sheets.push(one_tank_day());
    for line in [2, 33, 64] {
        sheets.push(with(one_tank_day(), line, 1, line as u32 - 1));
        sheets.push(with(one_tank_day(), line, 0, MOST_TANK - 1));
    }
    sheets.extend(paired_faults());
    sheets
}

/// Check 13 with another check of lines, on one line and on two, and with those of the
/// head line. On one line 7 and 13 exclude each other.
fn paired_faults() -> Vec<Lines> {
    let good = three_meals_day();
    // The first slot of a line that breaks check 13.
    let early = |line: usize| good[line - 1][2];
    let mut sheets = Vec::new();
    for line in [2, 3] {
        let overlapping = with(good.clone(), line, 1, early(line));
        for (field, value) in [(1, 0), (2, 10), (2, 1), (3, 0), (3, 9)] {
            sheets.push(with(overlapping.clone(), line, field, value));
        }
    }
    // 7, 8 and 9 on line 2 or 3 before 13 below it, and 13 before them.
    for (field, value) in [(0, 0), (0, MOST_TANK + 1), (1, 0), (2, 10), (3, 0)] {
        sheets.push(with(with(good.clone(), 1, field, value), 2, 1, 1));
        sheets.push(with(with(good.clone(), 2, field, value), 3, 1, early(3)));
        sheets.push(with(with(good.clone(), 2, 1, early(2)), 3, field, value));
    }
    sheets.push(with(with(good.clone(), 2, 1, early(2)), 3, 0, 4));
    sheets.push(with(with(good.clone(), 2, 1, early(2)), 3, 1, early(3)));
    for (field, value) in [(0, 97), (1, 9), (2, MOST_WAKE + 1), (3, 2), (3, 65)] {
        sheets.push(with(with(good.clone(), 0, field, value), 2, 1, early(2)));
    }
    sheets
}
