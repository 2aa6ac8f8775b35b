//! Look-ups by tank.

use super::{find_case, Case};
use crate::cases::meals::{full_meal_days, meal_days};
use crate::cases::sheets::{
    first_day, full_day, full_day_tank, held_day, refused_by, text, wide_days, with,
};
use crate::sheet::{LINE, MOST_TANK, MOST_WAKE};

/// Tanks with a line each, and tanks that no accepted sheet has.
pub fn find_cases() -> Vec<Case> {
    let mut cases = Vec::new();
    let sparse = vec![
        [9, 2, 3, 6],
        [3, 1, 4, 2],
        [17, 2, 9, 5],
        [999, 5, 5, 1],
        [99_999, 9, 9, 1],
        [100_003, 9, 9, 1],
        [MOST_TANK, 9, 9, 1],
    ];
    // Tanks that are there, those beside them, and those that some of their digits or bits
    // would make of them.
    for tank in [
        0,
        1,
        2,
        3,
        4,
        16,
        17,
        18,
        998,
        999,
        1_000,
        1_003,
        10_003,
        50_000,
        65_539,
        99_998,
        99_999,
        100_000,
        100_002,
        100_003,
        100_004,
        MOST_TANK - 1,
        MOST_TANK,
        MOST_TANK + 1,
        262_147,
        999_999,
        1_000_003,
        (1 << 31) + 3,
        u32::MAX,
    ] {
        cases.push(find_case(tank, text(&sparse)));
    }
    for lines in wide_days().into_iter().rev().take(2) {
        for tank in [9, 999, 99_999, 100_000, MOST_TANK - 1, MOST_TANK] {
            cases.push(find_case(tank, text(&lines)));
        }
    }
    for tank in 0..=4 {
        cases.push(find_case(tank, text(&first_day())));
        cases.push(find_case(tank, text(&held_day())));
        cases.push(find_case(tank, text(&[[3, 1, 4, 0]])));
        // Refused sheets that hold the tank all the same.
        for line in 1..=3 {
            cases.push(find_case(tank, text(&with(first_day(), line, 3, 0))));
            cases.push(find_case(
                tank,
                text(&with(first_day(), line, 0, MOST_TANK)),
            ));
        }
        for (field, value) in [(0, 97), (1, 9), (2, MOST_WAKE + 1), (3, 2), (3, 4)] {
            cases.push(find_case(tank, text(&with(first_day(), 0, field, value))));
        }
        let bytes = text(&first_day());
        let mut spoilt = bytes.clone();
        spoilt[4 * LINE - 1] = 13;
        cases.push(find_case(tank, spoilt));
        cases.push(find_case(tank, &bytes[..bytes.len() - 1]));
        cases.push(find_case(tank, &b""[..]));
    }
    for i in [1, 2, 32, 33, 40, 41, 49, 50, 63, 64] {
        for tank in [full_day_tank(i) - 1, full_day_tank(i), full_day_tank(i) + 1] {
            cases.push(find_case(tank, text(&full_day())));
        }
    }
    cases.extend(find_meals_cases());
    cases
}

/// Tanks with one line, with two and with more, at the sheet's start, within it and at
/// its end.
fn find_meals_cases() -> Vec<Case> {
    let mut cases = Vec::new();
    let sparse = vec![
        [9, 2, 3, 8],
        [3, 1, 1, 1],
        [3, 2, 9, 5],
        [17, 5, 5, 1],
        [500, 1, 2, 1],
        [500, 4, 5, 2],
        [500, 6, 9, 1],
        [MOST_TANK, 2, 8, 7],
        [MOST_TANK, 9, 9, 1],
    ];
    for tank in [0, 2, 3, 4, 17, 18, 499, 500, 501, 66_036, 100_500] {
        cases.push(find_case(tank, text(&sparse)));
    }
    for tank in [MOST_TANK - 1, MOST_TANK, MOST_TANK + 1] {
        cases.push(find_case(tank, text(&sparse)));
    }
    for tank in 0..=7 {
        for lines in meal_days() {
            cases.push(find_case(tank, text(&lines)));
        }
        // Refused sheets that hold the tank all the same.
        for sheet in refused_by(13) {
            cases.push(find_case(tank, sheet));
        }
    }
    for lines in full_meal_days() {
        for tank in [1, 32, 33, MOST_TANK] {
            cases.push(find_case(tank, text(&lines)));
        }
    }
    cases
}
