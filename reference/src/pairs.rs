//! Generated pairs of sheets for the comparison (request 109).

use crate::damage::damage;
use crate::draws::Draws;
use crate::sheet::{Ration, Sheet, MOST_BLOWERS, MOST_SLOTS, MOST_TANK, MOST_WAKE};

/// Two sheets. As often as not one is that of `sheet` and the other a copy with one small
/// change, so that the plans are the same or differ somewhere in the day. Else both are of
/// few slots and tanks and were drawn apart, so that they agree by chance, in some slots or
/// in all; some of these are held, and some are damaged.
pub fn pair(draws: &mut Draws, sheet: impl FnOnce(&mut Draws) -> Sheet) -> [Vec<u8>; 2] {
    if draws.one_in(2) {
        return few_and_few(draws);
    }
    let one = sheet(draws);
    let other = changed(draws, &one);
    let mut pair = [one.text(), other.text()];
    if draws.one_in(2) {
        pair.reverse();
    }
    pair
}

/// A copy of a sheet with one small change, or none. The change may leave the plan as it is,
/// or be a fault: of the meal after a window that moved, or of the last slot.
pub fn changed(draws: &mut Draws, sheet: &Sheet) -> Sheet {
    let mut other = sheet.clone();
    let n = other.rations.len();
    // The changes from 4 on are those of a ration.
    match draws.below(if n == 0 { 4 } else { 13 }) {
        0 => {}
        1 => other.wake = draws.between(0, MOST_WAKE),
        2 => other.blowers = step(draws, other.blowers).clamp(1, MOST_BLOWERS),
        3 if other.slots == MOST_SLOTS => other.slots -= 1,
        3 => other.slots += 1,
        4..=6 => renumber(draws, &mut other.rations),
        7 => {
            let ration = &mut other.rations[draws.index(n)];
            let window = ration.last - ration.first + 1;
            ration.volume = step(draws, ration.volume).clamp(1, window);
        }
        8 => {
            let ration = &mut other.rations[draws.index(n)];
            let window = ration.last - ration.first;
            ration.first = step(draws, ration.first).clamp(1, other.slots - window);
            ration.last = ration.first + window;
        }
        9 => {
            let ration = &mut other.rations[draws.index(n)];
            ration.last = step(draws, ration.last).clamp(ration.first, other.slots);
            ration.volume = ration.volume.min(ration.last - ration.first + 1);
        }
        10 => exchange(&mut other.rations, draws.index(n), draws.index(n)),
        11 => {
            other.rations.remove(draws.index(n));
        }
        // One more, in one slot, with the greatest tank: often a list's length is all that
        // differs.
        _ => {
            let slot = draws.between(1, other.slots);
            other.rations.push(Ration {
                tank: MOST_TANK,
                first: slot,
                last: slot,
                volume: 1,
            });
        }
    }
    other
}

/// A number, one more or one less, but not below 0.
fn step(draws: &mut Draws, number: u32) -> u32 {
    (number + 2 * draws.below(2)).saturating_sub(1)
}

/// Gives a tank, all its meals, another number between those of the tanks beside it.
fn renumber(draws: &mut Draws, rations: &mut [Ration]) {
    let tank = rations[draws.index(rations.len())].tank;
    let below = rations.iter().rev().find(|r| r.tank < tank);
    let above = rations.iter().find(|r| r.tank > tank);
    let least = below.map_or(1, |r| r.tank + 1);
    let most = above.map_or(MOST_TANK, |r| r.tank - 1);
    let number = draws.between(least, most);
    for ration in rations.iter_mut().filter(|r| r.tank == tank) {
        ration.tank = number;
    }
}

/// Exchanges two rations; the tanks stay, since they rise.
fn exchange(rations: &mut [Ration], i: usize, j: usize) {
    let tanks = [i, j].map(|k| rations[k].tank);
    rations.swap(i, j);
    [i, j]
        .iter()
        .zip(tanks)
        .for_each(|(&k, tank)| rations[k].tank = tank);
}

/// Two sheets of few slots and tanks, mostly of as many slots, and both of the same tanks.
fn few_and_few(draws: &mut Draws) -> [Vec<u8>; 2] {
    let slots = draws.between(1, MOST_FEW);
    let tanks = FEW_TANKS[draws.index(FEW_TANKS.len())];
    [slots, slots].map(|slots| {
        let slots = match draws.below(6) {
            0 => draws.between(1, MOST_FEW),
            _ => slots,
        };
        let mut bytes = few(draws, slots, &tanks).text();
        if draws.one_in(12) {
            damage(draws, &mut bytes);
        }
        bytes
    })
}

/// The most slots of these.
const MOST_FEW: u32 = 4;

/// The tanks of these: small ones, and ones of which the greater has a digit more, or more
/// than 16 bits, or is less as text or by its last digits.
const FEW_TANKS: [[u32; 4]; 4] = [
    [1, 2, 3, 4],
    [999, 1_000, 99_999, 100_000],
    [2, 65_535, 65_536, 65_537],
    [5, 100_004, 249_999, MOST_TANK],
];

/// A sheet of so many slots. As often as not a tank has a first meal, a second one and so
/// on, as long as there is room in the day.
fn few(draws: &mut Draws, slots: u32, tanks: &[u32]) -> Sheet {
    let mut rations = Vec::new();
    for &tank in tanks {
        let mut before = 0;
        while before < slots && draws.one_in(2) {
            let first = draws.between(before + 1, slots);
            let last = draws.between(first, slots);
            let volume = draws.between(1, last - first + 1);
            rations.push(Ration {
                tank,
                first,
                last,
                volume,
            });
            before = last;
        }
    }
    Sheet {
        slots,
        blowers: draws.between(1, 3),
        wake: draws.below(4),
        rations,
    }
}

#[cfg(test)]
mod tests {
    use super::*;
    use crate::comparison::{compare, Order};
    use crate::generate::{any_sheet, SMALL};

    /// Of 1,000 pairs, how many are answered so: no by each number, same, before, after.
    #[test]
    fn every_answer_is_there() {
        let mut draws = Draws::new(109);
        let (mut refused, mut orders) = ([0; 14], [0; 4]);
        for _ in 0..1_000 {
            let [one, other] = pair(&mut draws, |d| any_sheet(d, SMALL));
            let (number, _, order) = compare(&one, &other);
            refused[number as usize] += 1;
            orders[order as usize] += 1;
        }
        assert!(refused[12] > 100, "{refused:?}");
        assert!(refused[13] > 0, "{refused:?}");
        assert!(refused[1..10].iter().sum::<u32>() > 30, "{refused:?}");
        let both = [Order::Before as usize, Order::After as usize];
        assert!(both.iter().all(|&order| orders[order] > 150), "{orders:?}");
        assert!(orders[Order::Same as usize] > 120, "{orders:?}");
    }

    #[test]
    fn a_tank_is_renumbered_between_its_neighbours() {
        let mut draws = Draws::new(1);
        let meal = |tank, slot| Ration {
            tank,
            first: slot,
            last: slot,
            volume: 1,
        };
        let rations = [meal(3, 1), meal(5, 1), meal(5, 2), meal(8, 1)];
        let mut numbers = Vec::new();
        for _ in 0..200 {
            let mut other = rations;
            renumber(&mut draws, &mut other);
            assert_eq!(other[1].tank, other[2].tank);
            assert!(other[0].tank < other[1].tank && other[2].tank < other[3].tank);
            numbers.push(other[1].tank);
        }
        numbers.sort();
        numbers.dedup();
        assert_eq!(numbers, [4, 5, 6, 7]);
    }

    #[test]
    fn tanks_stay_where_rations_are_exchanged() {
        let ration = |tank, [first, last, volume]: [u32; 3]| Ration {
            tank,
            first,
            last,
            volume,
        };
        let (one, other) = ([1, 2, 1], [2, 4, 3]);
        let mut rations = [ration(3, one), ration(5, other)];
        exchange(&mut rations, 0, 1);
        assert_eq!(rations, [ration(3, other), ration(5, one)]);
    }
}
