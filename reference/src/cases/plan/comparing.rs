//! Comparisons: faults of either sheet in all orders, plans that are the same and plans
//! that are not.

use super::{compare_case, orders, Case};
use crate::cases::meals::{full_meal_days, meal_days};
use crate::cases::sheets::{
    day_of, document_days, first_day, full_day, held_day, idle_first_day, refused_by, settled_days,
    text, Lines, SHEET_CHECKS,
};
use crate::draws::Draws;
use crate::generate::{any_sheet, full_sheet, held_full_sheet, tight_sheet, MIDDLE, SMALL};
use crate::pairs::{changed, pair};

pub fn cases() -> Vec<Case> {
    let mut cases = Vec::new();
    let sheets = sheets();
    for first in &sheets {
        for second in &sheets {
            cases.push(compare_case(first, second));
        }
    }
    // The line named is that of the sheet at fault, and faults of the first sheet
    // come first.
    for number in SHEET_CHECKS {
        for sheet in refused_by(number) {
            cases.push(compare_case(&text(&first_day()), &sheet));
            cases.push(compare_case(&sheet, &text(&first_day())));
            cases.push(compare_case(&sheet, &text(&held_day())));
            cases.push(compare_case(&text(&held_day()), &sheet));
        }
    }
    for lines in document_days() {
        for others in document_days() {
            cases.push(compare_case(&text(&lines), &text(&others)));
        }
    }
    cases.extend(orders::cases());
    // A day of meals has the counts of the same rations with a tank each, and other tanks.
    let meals = [meal_days(), full_meal_days()].concat();
    for lines in &meals {
        cases.push(compare_case(&text(lines), &text(&with_own_tanks(lines))));
    }
    for pair in meals.windows(2) {
        cases.push(compare_case(&text(&pair[0]), &text(&pair[1])));
    }
    let full = text(&full_day());
    cases.push(compare_case(&full, &full));
    let settled: Vec<Vec<u8>> = settled_days().iter().map(|lines| text(lines)).collect();
    for pair in settled.windows(2) {
        cases.push(compare_case(&pair[0], &pair[1]));
    }
    cases.extend(generated_cases());
    cases
}

/// The same rations, and for each a tank of its own.
fn with_own_tanks(lines: &Lines) -> Lines {
    let mut lines = lines.clone();
    for (line, tank) in lines[1..].iter_mut().zip(1..) {
        line[0] = tank;
    }
    lines
}

/// One sheet for each fault, two that are held, and three that are planned, of which two
/// have as many slots.
fn sheets() -> Vec<Vec<u8>> {
    let mut sheets: Vec<Vec<u8>> = SHEET_CHECKS
        .iter()
        .map(|&number| refused_by(number).remove(0))
        .collect();
    let days = [
        held_day(),
        day_of(4, 1, 0, &[[2, 2, 1], [2, 2, 1]]),
        first_day(),
        day_of(4, 2, 0, &[[1, 4, 4], [3, 3, 1]]),
        idle_first_day(),
    ];
    sheets.extend(days.iter().map(|lines| text(lines)));
    sheets
}

fn generated_cases() -> Vec<Case> {
    let mut draws = Draws::new(32);
    let mut cases = Vec::new();
    for round in 0..360 {
        let limits = if round % 4 == 0 { MIDDLE } else { SMALL };
        let sheet = if round % 2 == 0 {
            tight_sheet
        } else {
            any_sheet
        };
        let [one, other] = pair(&mut draws, |draws| sheet(draws, limits));
        cases.push(compare_case(&one, &other));
        cases.push(compare_case(&other, &one));
    }
    for sheet in [full_sheet, full_sheet, held_full_sheet, full_sheet] {
        for _ in 0..2 {
            let one = sheet(&mut draws);
            let other = changed(&mut draws, &one);
            cases.push(compare_case(&one.text(), &other.text()));
        }
    }
    cases
}
