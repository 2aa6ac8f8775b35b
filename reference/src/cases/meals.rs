//! Days with several meals for a tank (request 102), which several streams share.

use super::sheets::Lines;
use crate::sheet::{MOST_TANK, MOST_WAKE};

/// Two meals of tank 5 whose windows touch, and a tank above it.
pub fn touching_day() -> Lines {
    vec![[4, 2, 2, 3], [5, 1, 2, 1], [5, 3, 4, 1], [6, 1, 4, 2]]
}

/// Three meals of tank 5; the last one's window does not touch the one before.
pub fn three_meals_day() -> Lines {
    vec![[9, 1, 2, 3], [5, 1, 2, 1], [5, 3, 5, 2], [5, 7, 9, 3]]
}

/// Small days with several meals for a tank.
pub fn meal_days() -> Vec<Lines> {
    vec![
        touching_day(),
        three_meals_day(),
        // A morning and an evening meal.
        vec![[10, 2, 3, 3], [1, 1, 3, 2], [1, 8, 10, 2], [2, 1, 4, 3]],
        vec![[8, 2, 2, 3], [1, 1, 3, 2], [1, 6, 8, 2], [2, 2, 7, 3]],
        // Held, though one ration of the two windows and volumes could be placed.
        vec![[4, 1, 1, 3], [5, 1, 2, 2], [5, 3, 4, 1], [6, 1, 2, 1]],
        // Two tanks whose meals take turns.
        vec![
            [4, 1, 0, 4],
            [1, 1, 1, 1],
            [1, 3, 3, 1],
            [2, 2, 2, 1],
            [2, 4, 4, 1],
        ],
    ]
}

/// 64 meals of one tank, the greatest, a slot each.
pub fn one_tank_day() -> Lines {
    let meals = (1..=64).map(|slot| [MOST_TANK, slot, slot, 1]);
    [[96, 8, MOST_WAKE, 64]].into_iter().chain(meals).collect()
}

/// Days of 96 slots and 64 meals: eight blowers do, and seven do not, but for the day of
/// one tank.
pub fn full_meal_days() -> Vec<Lines> {
    // 32 tanks with two meals of half the day; eight with eight meals, which fill it.
    let halves = |i: u32| [i / 2 + 1, i % 2 * 48 + 1, i % 2 * 48 + 48, 12];
    let parts = |i: u32| [i / 8 + 1, i % 8 * 12 + 1, i % 8 * 12 + 12, 12];
    let mut days = vec![one_tank_day()];
    for meal in [halves, parts] {
        for blowers in [8, 7] {
            let head = [96, blowers, 2, 64];
            days.push([head].into_iter().chain((0..64).map(meal)).collect());
        }
    }
    days
}

#[cfg(test)]
mod tests {
    use super::*;
    use crate::cases::sheets::text;
    use crate::placing::shown_set;
    use crate::sheet::{read, Ration, Sheet};

    fn accepted(lines: &Lines) -> Sheet {
        read(&text(lines)).expect("accepted")
    }

    #[test]
    fn each_day_has_a_tank_with_several_meals() {
        for lines in [meal_days(), full_meal_days()].concat() {
            let is_next = |pair: &[Ration]| pair[0].tank == pair[1].tank;
            assert!(accepted(&lines).rations.windows(2).any(is_next));
        }
    }

    #[test]
    fn full_days_need_eight_blowers() {
        for lines in &full_meal_days()[1..] {
            let sheet = accepted(lines);
            assert_eq!(shown_set(&sheet).is_some(), sheet.blowers == 7);
        }
    }
}
