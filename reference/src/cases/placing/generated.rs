//! Generated sheets with marks and bounds around what some placing needs.

use super::{bounds_case, shortfall_case, Case};
use crate::draws::Draws;
use crate::generate::{any_sheet, full_sheet, tight_sheet, Sizes, FULL, MIDDLE, SMALL};
use crate::placing::{shown_set, Placing, Question};
use crate::sheet::Sheet;

/// The limits for the sheet of a round.
fn limits(round: u32) -> Sizes {
    match round % 4 {
        0 => FULL,
        1 => MIDDLE,
        _ => SMALL,
    }
}

pub fn shortfall_cases() -> Vec<Case> {
    let mut draws = Draws::new(21);
    let mut cases = Vec::new();
    for round in 0..240 {
        let sheet = any_sheet(&mut draws, limits(round));
        let marks = some_marks(&mut draws, &sheet);
        cases.push(shortfall_case(&sheet.text(), &marks));
    }
    for _ in 0..16 {
        let sheet = full_sheet(&mut draws);
        let marks = some_marks(&mut draws, &sheet);
        cases.push(shortfall_case(&sheet.text(), &marks));
    }
    cases
}

/// Marks: at random, the slots from one to another, or those that a held sheet
/// shows, perhaps with one slot changed.
fn some_marks(draws: &mut Draws, sheet: &Sheet) -> Vec<u8> {
    let day = sheet.slots;
    let mut marks: Vec<u8> = match draws.below(4) {
        0 => (0..day).map(|_| u8::from(draws.one_in(2))).collect(),
        1 => {
            let first = draws.between(1, day);
            let last = draws.between(first, day);
            let inside = first..=last;
            (1..=day).map(|t| u8::from(inside.contains(&t))).collect()
        }
        _ => match shown_set(sheet) {
            Some(shown) => shown.into_iter().map(u8::from).collect(),
            None => vec![1; day as usize],
        },
    };
    if draws.one_in(2) {
        let at = draws.index(marks.len());
        marks[at] = 1 - marks[at];
    }
    marks
}

pub fn bounds_cases() -> Vec<Case> {
    let mut draws = Draws::new(22);
    let mut cases = Vec::new();
    for round in 0..480 {
        let sheet = if round % 3 == 0 {
            tight_sheet(&mut draws, limits(round))
        } else {
            any_sheet(&mut draws, limits(round))
        };
        let (lows, highs) = some_bounds(&mut draws, &sheet);
        cases.push(bounds_case(&sheet.text(), &lows, &highs));
    }
    for _ in 0..24 {
        let sheet = full_sheet(&mut draws);
        let (lows, highs) = some_bounds(&mut draws, &sheet);
        cases.push(bounds_case(&sheet.text(), &lows, &highs));
    }
    cases
}

/// Bounds around the loads of a hidden placing, or at random on a held sheet.
fn some_bounds(draws: &mut Draws, sheet: &Sheet) -> (Vec<u32>, Vec<u32>) {
    let day = sheet.slots as usize;
    let Some(placing) = some_placing(draws, sheet) else {
        let lows = (0..day).map(|_| draws.below(2)).collect();
        let highs = (0..day).map(|_| sheet.blowers + draws.below(2)).collect();
        return (lows, highs);
    };
    let loads = loads(&placing, day);
    match draws.below(6) {
        // The loads themselves.
        0 => (loads.clone(), loads),
        // The loads with one slot changed.
        1 => {
            let mut changed = loads;
            let at = draws.index(day);
            changed[at] = match draws.one_in(2) {
                true => changed[at] + 1,
                false => changed[at].saturating_sub(1),
            };
            (changed.clone(), changed)
        }
        // Loads of as many feedings, some of them in other slots.
        2 => {
            let mut moved = loads;
            for _ in 0..draws.between(1, 3) {
                let (from, to) = (draws.index(day), draws.index(day));
                if moved[from] > 0 && moved[to] < sheet.blowers {
                    moved[from] -= 1;
                    moved[to] += 1;
                }
            }
            (moved.clone(), moved)
        }
        // Room around the loads, then none in one slot on one side of its load.
        3 => {
            let mut lows: Vec<u32> = loads
                .iter()
                .map(|&load| load.saturating_sub(draws.below(3)))
                .collect();
            let mut highs: Vec<u32> = loads.iter().map(|&load| load + draws.below(3)).collect();
            let at = draws.index(day);
            if draws.one_in(2) {
                lows[at] = (loads[at] + 1).min(sheet.blowers);
                highs[at] = highs[at].max(lows[at]);
            } else {
                highs[at] = loads[at].saturating_sub(1);
                lows[at] = lows[at].min(highs[at]);
            }
            (lows, highs)
        }
        // Lows alone: the loads of some slots, a few raised.
        4 => {
            let low = |&load: &u32| match draws.below(8) {
                0 => load + 1,
                1..=3 => load,
                _ => 0,
            };
            let lows = loads.iter().map(low).collect();
            (lows, vec![sheet.blowers + draws.below(2); day])
        }
        // Highs alone: the loads of some slots, a few lowered.
        _ => {
            let high = |&load: &u32| match draws.below(8) {
                0 => load.saturating_sub(1),
                1..=3 => load,
                _ => load + draws.below(9),
            };
            (vec![0; day], loads.iter().map(high).collect())
        }
    }
}

/// A sound placing that draws decide, none if the sheet is held.
fn some_placing(draws: &mut Draws, sheet: &Sheet) -> Option<Placing> {
    let mut start = vec![vec![false; sheet.slots as usize]; sheet.rations.len()];
    for (row, ration) in start.iter_mut().zip(&sheet.rations) {
        let mut left = ration.volume;
        for t in ration.first..=ration.last {
            // Each choice of the volume's slots is as likely as any other.
            if draws.below(ration.last - t + 1) < left {
                row[t as usize - 1] = true;
                left -= 1;
            }
        }
    }
    Question::of_day(sheet).solve(Some(&start)).ok()
}

/// The feedings of each slot.
fn loads(placing: &Placing, day: usize) -> Vec<u32> {
    let load = |t: usize| placing.iter().filter(|row| row[t]).count() as u32;
    (0..day).map(load).collect()
}
