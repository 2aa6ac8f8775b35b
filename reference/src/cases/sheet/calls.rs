//! Writes into buffers of several lengths, and generated sheets for every call.

use super::meals::meal_sheets;
use super::values::value_sheets;
use super::{find_case, read_case, write_case, Case};
use crate::cases::meals::touching_day;
use crate::cases::sheets::{first_day, full_day, FIVE_COLUMN_LINE};
use crate::damage::{damage, damaged_sheet};
use crate::draws::Draws;
use crate::generate::{any_sheet, random_sheet, tight_sheet, FULL, MIDDLE, SMALL};
use crate::sheet::{LINE, MOST_TANK, MOST_WAKE};

/// Each value sheet written into a buffer one byte too short, exact, longer, of no byte at
/// all, and as long as five columns took; those of meals into one that is too short and into
/// an exact one.
pub fn write_cases() -> Vec<Case> {
    let mut cases = Vec::new();
    for lines in value_sheets() {
        let exact = LINE * lines.len();
        let five_columns = FIVE_COLUMN_LINE * lines.len();
        for length in [0, five_columns, exact - 1, exact, exact + 40] {
            cases.push(write_case(length, &lines.concat()));
        }
    }
    for lines in meal_sheets() {
        let exact = LINE * lines.len();
        for length in [exact - 1, exact] {
            cases.push(write_case(length, &lines.concat()));
        }
    }
    cases.push(write_case(2_000, &first_day().concat()));
    cases.push(write_case(2_000, &full_day().concat()));
    cases.push(write_case(LINE, &full_day().concat()));
    cases.push(write_case(LINE * 64, &full_day().concat()));
    cases.push(write_case(LINE * 65 + 1, &full_day().concat()));
    // A buffer with room for the numbered rations only.
    cases.push(write_case(LINE * 3, &first_day().concat()));

    // Values of the whole 32 bits in each place, also those that a narrower
    // number, or a product with 4 or 25, would take for small ones.
    for day in [first_day().concat(), touching_day().concat()] {
        for at in 0..day.len() {
            let low = day[at];
            for value in [
                u32::MAX,
                u32::MAX - 1,
                u32::MAX - low,
                1 << 31,
                (1 << 31) + low,
                (1 << 30) + low,
                (1 << 16) + low,
                (1 << 8) + low,
                99_999,
                100_000,
                MOST_TANK + 1,
                999_999,
                1_000_000 + low,
            ] {
                let mut changed = day.clone();
                changed[at] = value;
                cases.push(write_case(120, &changed));
            }
        }
    }
    let day = first_day().concat();
    for n in [0, 1 << 30, 1 << 31, 3 << 30, u32::MAX, u32::MAX - 1] {
        cases.push(write_case(120, &[4, 2, 2, n]));
        cases.push(write_case(120, &[4, 2, 2, n, 1, 1, 1, 1]));
    }
    // The flat list too short and too long, also by less than a ration.
    for length in 4..=day.len() + 5 {
        let mut changed: Vec<u32> = day.iter().copied().chain([4, 1, 1, 1, 5]).collect();
        changed.truncate(length);
        cases.push(write_case(120, &changed));
        let n = (length as u32 - 4) / 4;
        changed[3] = n;
        cases.push(write_case(LINE * (n as usize + 1), &changed));
    }
    for (n, numbers) in [
        (64, 255),
        (64, 257),
        (63, 256),
        (65, 256),
        (65, 260),
        (0, 4),
    ] {
        let mut changed = full_day().concat();
        changed.extend([MOST_TANK + 1, 1, 1, 1]);
        changed.truncate(4 + numbers);
        changed[3] = n;
        cases.push(write_case(2_000, &changed));
    }
    // Every refusal of values comes before 10, and 3 before all others.
    cases.push(write_case(0, &[0, 0, MOST_WAKE + 1, 65]));
    cases.push(write_case(0, &[4, 0, MOST_WAKE + 1, 65]));
    cases.push(write_case(0, &[4, 2, MOST_WAKE + 1, 65]));
    cases.push(write_case(0, &[4, 2, MOST_WAKE, 65]));
    for length in [0, FIVE_COLUMN_LINE, LINE - 1, LINE, LINE + 1] {
        cases.push(write_case(length, &[4, 2, MOST_WAKE, 0]));
    }
    cases
}

pub fn generated_cases() -> Vec<Case> {
    let mut draws = Draws::new(1);
    let mut cases = Vec::new();
    for round in 0..300 {
        let limits = if round % 3 == 0 { FULL } else { SMALL };
        if round % 2 == 0 {
            let sheet = any_sheet(&mut draws, limits);
            cases.push(read_case(sheet.text()));
        } else {
            cases.push(read_case(damaged_sheet(&mut draws, limits)));
        }
    }
    for round in 0..60 {
        let sheet = match round % 6 {
            0 => tight_sheet(&mut draws, FULL),
            1 | 2 => tight_sheet(&mut draws, SMALL),
            _ => random_sheet(&mut draws, MIDDLE),
        };
        let mut bytes = sheet.text();
        if round % 3 == 0 {
            damage(&mut draws, &mut bytes);
        }
        let some = draws.index(sheet.rations.len() + 1);
        let tank = sheet.rations.get(some).map_or(0, |r| r.tank);
        cases.push(find_case(tank + draws.below(2), bytes));
    }
    for round in 0..120 {
        let limits = if round % 6 == 0 { FULL } else { SMALL };
        let sheet = any_sheet(&mut draws, limits);
        let n = sheet.rations.len() as u32;
        let mut numbers = vec![sheet.slots, sheet.blowers, sheet.wake, n];
        numbers.extend(sheet.flat_rations());
        match round % 4 {
            0 => {
                let at = draws.index(numbers.len());
                numbers[at] = match draws.one_in(2) {
                    true => draws.below(100),
                    false => draws.below(MOST_TANK + 10),
                };
            }
            // A ration takes the tank before it, whether its window allows that or not.
            1 if n > 1 => {
                let at = 4 * (2 + draws.index(n as usize - 1));
                numbers[at] = numbers[at - 4];
            }
            _ => {}
        }
        let exact = LINE * (n as usize + 1);
        let length = exact + draws.index(4) - 1;
        cases.push(write_case(length, &numbers));
    }
    cases
}
