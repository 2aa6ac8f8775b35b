//! Comparisons of days whose plans are known beforehand: the same plan from different
//! sheets, and plans that differ in one slot, in D, in a list's length or in tanks alone,
//! tanks of every width among them.

use super::{compare_case, Case};
use crate::cases::sheets::{day_of, first_day, idle_first_day, settled_days, text, with, Lines};
use crate::comparison::Tanks;
use crate::sheet::{MOST_SLOTS, MOST_TANK, MOST_WAKE};

pub fn cases() -> Vec<Case> {
    let mut cases = Vec::new();
    for plans in [small_plans(), wide_plans()] {
        let days: Vec<Lines> = plans.iter().map(day_with).collect();
        cases.extend(all_with_all(&days));
    }
    for days in same_days() {
        cases.extend(all_with_all(&days));
    }
    let plans = [near_plans(), two_differences(), other_lengths()].concat();
    for [one, other] in plans {
        cases.extend(in_both_orders(&day_with(&one), &day_with(&other)));
    }
    for [one, other] in near_full_days() {
        cases.extend(in_both_orders(&one, &other));
    }
    cases
}

fn all_with_all(days: &[Lines]) -> Vec<Case> {
    let sheets: Vec<Vec<u8>> = days.iter().map(|lines| text(lines)).collect();
    let with_all = |one: &Vec<u8>| -> Vec<Case> {
        let others = sheets.iter();
        others.map(|other| compare_case(one, other)).collect()
    };
    sheets.iter().flat_map(with_all).collect()
}

fn in_both_orders(one: &Lines, other: &Lines) -> [Case; 2] {
    let (one, other) = (text(one), text(other));
    [compare_case(&one, &other), compare_case(&other, &one)]
}

/// A day whose plan has these lists, since its sheet leaves no choice: a meal for each longest
/// run of slots in which a tank is fed, with as many slots as feedings.
fn day_with(tanks: &Tanks) -> Lines {
    day_with_meals(tanks, MOST_SLOTS)
}

/// The same, no meal having more than `longest` feedings.
fn day_with_meals(tanks: &Tanks, longest: u32) -> Lines {
    let mut numbers = tanks.concat();
    numbers.sort();
    numbers.dedup();
    let mut meals: Lines = Vec::new();
    for tank in numbers {
        let slots = (1..).zip(tanks).filter(|(_, fed)| fed.contains(&tank));
        for (slot, _) in slots {
            match meals.last_mut() {
                Some([own, _, last, volume])
                    if *own == tank && *last + 1 == slot && *volume < longest =>
                {
                    *last = slot;
                    *volume += 1;
                }
                _ => meals.push([tank, slot, slot, 1]),
            }
        }
    }
    let blowers = tanks.iter().map(Vec::len).max().unwrap_or(0).max(1);
    let head = [tanks.len(), blowers, 1, meals.len()].map(|number| number as u32);
    [vec![head], meals].concat()
}

/// Every list of some of these tanks.
fn lists_of(tanks: &[u32]) -> Tanks {
    let sets = 0..1 << tanks.len();
    let list = |set: u32| {
        let there = (0..).zip(tanks).filter(|&(i, _)| set >> i & 1 == 1);
        there.map(|(_, &tank)| tank).collect()
    };
    sets.map(list).collect()
}

/// Every plan of one slot with some of three tanks, and of two slots with some of two.
fn small_plans() -> Vec<Tanks> {
    let mut plans: Vec<Tanks> = lists_of(&[4, 7, 9]).into_iter().map(|l| vec![l]).collect();
    for first in lists_of(&[4, 7]) {
        for second in lists_of(&[4, 7]) {
            plans.push(vec![first.clone(), second]);
        }
    }
    plans
}

/// Plans of one slot with one tank, rising: to be compared as numbers, and neither as text
/// nor by some of their digits or bits.
fn wide_plans() -> Vec<Tanks> {
    let tanks = [
        1,
        5,
        999,
        1_000,
        65_537,
        99_999,
        100_000,
        100_005,
        MOST_TANK - 1,
        MOST_TANK,
    ];
    tanks.map(|tank| vec![vec![tank]]).to_vec()
}

/// Days that have the same plan, though their sheets differ.
fn same_days() -> Vec<Vec<Lines>> {
    let first = vec![vec![1], vec![1], vec![2, 3], vec![2]];
    let of_tank_5 = |meals: &[[u32; 3]]| {
        let day = day_of(6, 1, 0, meals);
        (1..day.len()).fold(day, |day, line| with(day, line, 0, 5))
    };
    let long = long_plan();
    vec![
        // Other blowers, another wake cost, windows without spare slots, a meal for each
        // feeding.
        vec![
            first_day(),
            with(first_day(), 0, 1, 8),
            with(first_day(), 0, 2, MOST_WAKE),
            with(first_day(), 2, 1, 3),
            day_with(&first),
            day_with_meals(&first, 1),
        ],
        // Windows that begin in other slots.
        vec![
            idle_first_day(),
            with(idle_first_day(), 1, 1, 2),
            with(idle_first_day(), 1, 1, 3),
        ],
        vec![day_of(4, 1, 0, &[]), day_of(4, 8, MOST_WAKE, &[])],
        // Fed in slots 3 to 5: volumes moved from meal to meal, and one meal.
        vec![
            of_tank_5(&[[1, 3, 1], [4, 6, 2]]),
            of_tank_5(&[[1, 4, 2], [5, 6, 1]]),
            of_tank_5(&[[3, 5, 3]]),
        ],
        // 96 slots.
        vec![
            day_with(&long),
            with(with(day_with(&long), 0, 1, 8), 0, 2, MOST_WAKE),
            day_with_meals(&long, 10),
        ],
    ]
}

/// A plan of five slots, one of them idle.
fn short_plan() -> Tanks {
    vec![vec![4, 7], vec![9], vec![], vec![4, 7, 9], vec![7]]
}

/// A plan of 96 slots: tank 4 all day, tank 7 up to slot 40, tank 9 from slot 30 on.
fn long_plan() -> Tanks {
    let list = |slot| match slot {
        1..30 => vec![4, 7],
        30..=40 => vec![4, 7, 9],
        _ => vec![4, 9],
    };
    (1..=MOST_SLOTS).map(list).collect()
}

/// A plan with other lists in some slots.
fn with_lists(plan: &Tanks, lists: &[(usize, &[u32])]) -> Tanks {
    let mut plan = plan.clone();
    for &(slot, list) in lists {
        plan[slot - 1] = list.to_vec();
    }
    plan
}

/// Plans that differ in one slot only, from the first to the last: in a number, in several,
/// and where one list ends.
fn near_plans() -> Vec<[Tanks; 2]> {
    let lists: [&[u32]; 10] = [
        &[],
        &[3],
        &[4],
        &[5],
        &[10],
        &[4, 7],
        &[4, 8],
        &[4, 9],
        &[3, 7, 9],
        &[4, 7, 9],
    ];
    let short = (1..=5).map(|slot| (short_plan(), slot));
    let long = [1, 2, 48, 95, 96].map(|slot| (long_plan(), slot));
    let mut pairs = Vec::new();
    for (plan, slot) in short.chain(long) {
        let others = lists.iter().filter(|&&list| plan[slot - 1] != list);
        pairs.extend(others.map(|list| [plan.clone(), with_lists(&plan, &[(slot, list)])]));
    }
    pairs
}

/// Plans that differ in two slots, the smaller list of one standing before the greater one:
/// the earlier slot decides.
fn two_differences() -> Vec<[Tanks; 2]> {
    let short = [(1, 2), (1, 5), (2, 4), (3, 5), (4, 5)];
    let long = [(1, 2), (1, 96), (48, 49), (95, 96)];
    let short = short.into_iter().map(|slots| (short_plan(), slots));
    let long = long.into_iter().map(|slots| (long_plan(), slots));
    let pairs = short.chain(long).map(|(plan, (early, late))| {
        let one = with_lists(&plan, &[(early, &[4]), (late, &[4, 7])]);
        let other = with_lists(&plan, &[(early, &[4, 7]), (late, &[4])]);
        [one, other]
    });
    pairs.collect()
}

/// Plans of other lengths: D alone differs, the longer day has a feeding in its last slot, or
/// its lists are smaller.
fn other_lengths() -> Vec<[Tanks; 2]> {
    let mut pairs = Vec::new();
    for plan in [vec![vec![4]], short_plan(), long_plan()[1..].to_vec()] {
        let (idle, fed) = ([vec![]], [vec![1]]);
        for longer in [
            [&plan[..], &idle].concat(),
            [&plan[..], &fed].concat(),
            [&idle[..], &plan].concat(),
            vec![vec![]; plan.len() + 1],
        ] {
            pairs.push([plan.clone(), longer]);
        }
    }
    pairs
}

/// Full sheets that differ in one ration: in its tank, or in a feeding of the last slot.
fn near_full_days() -> Vec<[Lines; 2]> {
    let with_room = |mut day: Lines| {
        // Tanks 15, 30, .., so that there are numbers between them.
        day[1..].iter_mut().for_each(|line| line[0] *= 15);
        day
    };
    let of_eight = settled_days()
        .into_iter()
        .filter(|day| day[0] == [96, 8, 1, 64]);
    let days: Vec<Lines> = of_eight.map(with_room).collect();
    let mut pairs = Vec::new();
    for day in &days {
        for line in [1, 8, 9, 64] {
            let other = with(day.clone(), line, 0, day[line][0] + 1);
            pairs.push([day.clone(), other]);
        }
    }
    // Eight rations are fed in each slot from 85 to 96: without the first and the last of
    // these in slot 96.
    for line in [57, 64] {
        let other = with(with(days[0].clone(), line, 2, 95), line, 3, 11);
        pairs.push([days[0].clone(), other]);
    }
    pairs
}

#[cfg(test)]
mod tests {
    use super::*;
    use crate::comparison::{compare, fed_tanks, Order};
    use crate::method;
    use crate::sheet::read;

    fn tanks(lines: &Lines) -> Tanks {
        let sheet = read(&text(lines)).expect("accepted");
        fed_tanks(&method::plan(&sheet).expect("planned"))
    }

    fn order(one: &Lines, other: &Lines) -> Order {
        let (number, line, order) = compare(&text(one), &text(other));
        assert_eq!((number, line), (0, 0));
        order
    }

    #[test]
    fn each_day_has_the_plan_that_it_was_made_for() {
        let pairs = [near_plans(), two_differences(), other_lengths()].concat();
        let alone = [small_plans(), wide_plans()].concat();
        for plan in alone.iter().chain(pairs.as_flattened()) {
            assert_eq!(&tanks(&day_with(plan)), plan);
        }
        for plan in [short_plan(), long_plan()] {
            assert_eq!(tanks(&day_with_meals(&plan, 10)), plan);
        }
        assert_eq!(tanks(&day_with_meals(&short_plan(), 1)), short_plan());
    }

    #[test]
    fn the_same_plan_from_different_sheets() {
        for days in same_days() {
            for (i, one) in days.iter().enumerate() {
                assert!(days[i + 1..].iter().all(|other| one != other));
                assert!(days.iter().all(|other| order(one, other) == Order::Same));
            }
        }
    }

    #[test]
    fn wide_tanks_are_numbers() {
        let days: Vec<Lines> = wide_plans().iter().map(day_with).collect();
        for (i, one) in days.iter().enumerate() {
            assert!(days[i + 1..]
                .iter()
                .all(|other| order(one, other) == Order::Before));
        }
    }

    #[test]
    fn the_earlier_slot_decides() {
        for [one, other] in two_differences() {
            assert_eq!(order(&day_with(&one), &day_with(&other)), Order::Before);
        }
    }

    #[test]
    fn the_shorter_day_comes_first() {
        for [one, other] in other_lengths() {
            assert_eq!(order(&day_with(&one), &day_with(&other)), Order::Before);
        }
    }

    #[test]
    fn full_days_that_differ() {
        let days = near_full_days();
        let orders = days.iter().map(|[one, other]| order(one, other));
        let mut expected = vec![Order::Before; 13];
        // The list that ends first in slot 96 is the other day's.
        expected.push(Order::After);
        assert_eq!(orders.collect::<Vec<_>>(), expected);
        assert_eq!(tanks(&days[12][0])[..95], tanks(&days[12][1])[..95]);
        assert_eq!(tanks(&days[13][0])[..95], tanks(&days[13][1])[..95]);
    }
}
