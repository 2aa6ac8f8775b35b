//! Generated sheets: well-formed ones of several kinds, many of them with several meals
//! for some tanks.

use crate::draws::Draws;
use crate::placing::shown_set;
use crate::sheet::{Ration, Sheet, MOST_BLOWERS, MOST_RATIONS, MOST_SLOTS, MOST_TANK, MOST_WAKE};

/// The sizes of a generated sheet, or the greatest ones it may have; of wake costs, the
/// greatest of most sheets, since some have any.
#[derive(Clone, Copy, Debug)]
pub struct Sizes {
    pub slots: u32,
    pub blowers: u32,
    pub wake: u32,
    pub rations: u32,
}

/// The limits of the sheet itself.
pub const FULL: Sizes = Sizes {
    slots: MOST_SLOTS,
    blowers: MOST_BLOWERS,
    wake: MOST_WAKE,
    rations: MOST_RATIONS,
};

/// Limits of middle sheets.
pub const MIDDLE: Sizes = Sizes {
    slots: 40,
    blowers: 5,
    wake: 60,
    rations: 24,
};

/// Limits of small sheets.
pub const SMALL: Sizes = Sizes {
    slots: 12,
    blowers: 3,
    wake: 20,
    rations: 6,
};

/// Tanks at which a number gets a digit more, or more than 16 bits, and the last one.
const TANK_EDGES: [u32; 7] = [99, 999, 9_999, 65_535, 99_999, 131_071, MOST_TANK];

/// `count` tanks rising strictly. As often as not they are small; else they are spread over
/// all that a tank may be, or lie around an edge.
fn rising_tanks(draws: &mut Draws, count: usize) -> Vec<u32> {
    let count = count as u32;
    let (mut before, longest_step) = match draws.below(4) {
        0 | 1 => (0, 30),
        2 => (0, 2 * MOST_TANK / count.max(1)),
        _ => {
            let edge = TANK_EDGES[draws.index(TANK_EDGES.len())];
            let below = draws.between(0, 2 * count);
            (edge.saturating_sub(below).min(MOST_TANK - count), 3)
        }
    };
    let mut tanks = Vec::new();
    for left in (0..count).rev() {
        // Leave one number for each tank still to come.
        let room = MOST_TANK - left - before;
        before += draws.between(1, room.min(longest_step));
        tanks.push(before);
    }
    tanks
}

/// Wake costs at an end of their range: of practice sheets, and of all.
const WAKE_EDGES: [u32; 4] = [200, 201, MOST_WAKE - 1, MOST_WAKE];

/// A wake cost: small as often as not, since small ones decide between off and on. One in
/// eight is any, or one at an edge.
fn some_wake(draws: &mut Draws, most: u32) -> u32 {
    match draws.below(16) {
        0..=7 => draws.between(0, most.min(12)),
        8..=13 => draws.between(0, most.min(200)),
        14 => draws.between(0, MOST_WAKE),
        _ => WAKE_EDGES[draws.index(WAKE_EDGES.len())],
    }
}

/// Sizes within the limits, with at least so many rations.
fn some_sizes(draws: &mut Draws, limits: Sizes, least_rations: u32) -> Sizes {
    Sizes {
        slots: draws.between(1, limits.slots),
        blowers: draws.between(1, limits.blowers),
        wake: some_wake(draws, limits.wake),
        rations: draws.between(least_rations, limits.rations.max(least_rations)),
    }
}

/// Deals the rations of two sheets in three out to fewer tanks, as meals.
fn some_meals(draws: &mut Draws, sheet: &mut Sheet) {
    if !draws.one_in(3) {
        let rations = std::mem::take(&mut sheet.rations);
        sheet.rations = meals(draws, rations);
    }
}

/// The rations as meals: most become the next meal of a tank whose windows so far end
/// before theirs begins; of several such tanks the one that ends last, so that many
/// windows touch. Windows and volumes stay, and with them whether there is a sound placing.
fn meals(draws: &mut Draws, mut rations: Vec<Ration>) -> Vec<Ration> {
    rations.sort_by_key(|r| r.first);
    let most_meals = draws.between(2, 8) as usize;
    let mut tanks: Vec<Vec<Ration>> = Vec::new();
    for ration in rations {
        let end = |meals: &Vec<Ration>| meals[meals.len() - 1].last;
        let fitting = tanks
            .iter_mut()
            .filter(|meals| meals.len() < most_meals && end(meals) < ration.first)
            .max_by_key(|meals| end(meals));
        match fitting {
            Some(meals) if !draws.one_in(4) => meals.push(ration),
            _ => tanks.push(vec![ration]),
        }
    }
    // Sheet order decides between rations, so it is not that of the day.
    for i in (1..tanks.len()).rev() {
        tanks.swap(i, draws.index(i + 1));
    }
    let numbers = rising_tanks(draws, tanks.len());
    tanks
        .into_iter()
        .zip(numbers)
        .flat_map(|(meals, tank)| meals.into_iter().map(move |r| Ration { tank, ..r }))
        .collect()
}

/// A well-formed sheet with windows and volumes at random. Volumes are kept near
/// the day's capacity, so that some of these sheets have a plan and some are held.
pub fn random_sheet(draws: &mut Draws, limits: Sizes) -> Sheet {
    let sizes = some_sizes(draws, limits, 0);
    let mut sheet = random_sheet_of(draws, sizes);
    some_meals(draws, &mut sheet);
    sheet
}

fn random_sheet_of(draws: &mut Draws, sizes: Sizes) -> Sheet {
    let slots = sizes.slots;
    let fair_volume = (slots * sizes.blowers / sizes.rations.max(1)).max(1);
    let rations = rising_tanks(draws, sizes.rations as usize)
        .into_iter()
        .map(|tank| {
            let first = draws.between(1, slots);
            let last = draws.between(first, slots);
            let window = last - first + 1;
            let most = match draws.below(8) {
                0 => window,
                1 | 2 => 2 * fair_volume,
                _ => fair_volume,
            };
            let volume = draws.between(1, window.min(most));
            Ration {
                tank,
                first,
                last,
                volume,
            }
        })
        .collect();
    Sheet {
        slots,
        blowers: sizes.blowers,
        wake: sizes.wake,
        rations,
    }
}

/// A well-formed sheet on which every window is the whole day.
pub fn whole_day_sheet(draws: &mut Draws, limits: Sizes) -> Sheet {
    let sizes = some_sizes(draws, limits, 0);
    let mut sheet = random_sheet_of(draws, sizes);
    widen(&mut sheet);
    sheet
}

/// Makes every window the whole day, on a sheet with one meal for each tank.
fn widen(sheet: &mut Sheet) {
    for ration in &mut sheet.rations {
        ration.first = 1;
        ration.last = sheet.slots;
    }
}

/// A sheet built around a hidden placing, which is sound, with windows hardly
/// wider than the slots chosen: it has a plan, and few placings to choose from.
pub fn tight_sheet(draws: &mut Draws, limits: Sizes) -> Sheet {
    let sizes = some_sizes(draws, limits, 1);
    let mut sheet = tight_sheet_of(draws, sizes);
    some_meals(draws, &mut sheet);
    sheet
}

fn tight_sheet_of(draws: &mut Draws, sizes: Sizes) -> Sheet {
    let Sizes { slots, blowers, .. } = sizes;
    let n = sizes.rations as usize;
    let mut chosen = vec![Vec::new(); n];
    for slot in 1..=slots {
        let feedings = if draws.one_in(4) {
            draws.between(0, blowers)
        } else {
            blowers
        };
        for _ in 0..feedings {
            // Rations near each other in the list are fed near each other in the day.
            let near = (slot as usize * n) / (slots as usize + 1);
            let i = (near + draws.index(n.min(12))) % n;
            if chosen[i].last() != Some(&slot) {
                chosen[i].push(slot);
            }
        }
    }
    chosen.retain(|fed| !fed.is_empty());
    let slack = draws.below(4);
    let tanks = rising_tanks(draws, chosen.len());
    let rations = chosen
        .iter()
        .zip(tanks)
        .map(|(fed, tank)| Ration {
            tank,
            first: (fed[0].saturating_sub(draws.between(0, slack))).max(1),
            last: (fed[fed.len() - 1] + draws.between(0, slack)).min(slots),
            volume: fed.len() as u32,
        })
        .collect();
    Sheet {
        slots,
        blowers,
        wake: sizes.wake,
        rations,
    }
}

/// A tight sheet with one or more rations made harder to place: a longer volume, a
/// shorter window or fewer blowers. It is well-formed, and often without a plan.
pub fn crowded_sheet(draws: &mut Draws, limits: Sizes) -> Sheet {
    let mut sheet = tight_sheet(draws, limits);
    crowd(draws, &mut sheet);
    sheet
}

/// Makes rations harder to place. No window grows, so that meals stay apart.
fn crowd(draws: &mut Draws, sheet: &mut Sheet) {
    if draws.one_in(3) && sheet.blowers > 1 {
        sheet.blowers -= 1;
    }
    for ration in &mut sheet.rations {
        let window = ration.last - ration.first + 1;
        match draws.below(4) {
            0 => ration.volume = draws.between(ration.volume, window),
            1 if window > ration.volume => ration.last -= 1,
            2 if window > ration.volume => ration.first += 1,
            _ => {}
        }
    }
}

/// A well-formed sheet without a sound placing.
pub fn held_sheet(draws: &mut Draws, limits: Sizes) -> Sheet {
    loop {
        let sheet = crowded_sheet(draws, limits);
        if shown_set(&sheet).is_some() {
            return sheet;
        }
    }
}

/// A well-formed sheet without a sound placing that often asks for far more than `held_sheet`
/// does: windows at random or the whole day, with volumes from some part of their length up. It
/// is no kind of `any_sheet`, whose draws stay as they are.
pub fn heavy_sheet(draws: &mut Draws, limits: Sizes) -> Sheet {
    loop {
        let sizes = some_sizes(draws, limits, 2);
        let mut sheet = random_sheet_of(draws, sizes);
        if draws.one_in(3) {
            widen(&mut sheet);
        }
        let parts = draws.between(1, 4);
        for ration in &mut sheet.rations {
            let window = ration.last - ration.first + 1;
            ration.volume = draws.between(window.div_ceil(parts), window);
        }
        some_meals(draws, &mut sheet);
        if shown_set(&sheet).is_some() {
            return sheet;
        }
    }
}

/// A well-formed sheet of any kind.
pub fn any_sheet(draws: &mut Draws, limits: Sizes) -> Sheet {
    match draws.below(5) {
        0 => random_sheet(draws, limits),
        1 => whole_day_sheet(draws, limits),
        2 => tight_sheet(draws, limits),
        3 => crowded_sheet(draws, limits),
        _ => held_sheet(draws, limits),
    }
}

/// A sheet with a plan whose blowers stop and start often: most windows are a few slots
/// long, the others longer, up to the whole day.
pub fn jagged_sheet(draws: &mut Draws, limits: Sizes) -> Sheet {
    loop {
        let sizes = some_sizes(draws, limits, 1);
        let mut sheet = jagged_sheet_of(draws, sizes);
        some_meals(draws, &mut sheet);
        if shown_set(&sheet).is_none() {
            return sheet;
        }
    }
}

/// Such a sheet of the most slots, blowers and rations.
pub fn jagged_full_sheet(draws: &mut Draws) -> Sheet {
    loop {
        let sheet = jagged_sheet_of(draws, FULL);
        if shown_set(&sheet).is_none() {
            return sheet;
        }
    }
}

fn jagged_sheet_of(draws: &mut Draws, sizes: Sizes) -> Sheet {
    let slots = sizes.slots;
    let longest = draws.between(1, 4).min(slots);
    let most_long = draws.between(2, 8);
    let rations = rising_tanks(draws, sizes.rations as usize)
        .into_iter()
        .map(|tank| {
            let length = match draws.below(most_long) {
                0 => draws.between(longest, slots),
                _ => draws.between(1, longest),
            };
            let first = draws.between(1, slots - length + 1);
            Ration {
                tank,
                first,
                last: first + length - 1,
                volume: draws.between(1, length),
            }
        })
        .collect();
    Sheet {
        slots,
        blowers: sizes.blowers,
        wake: sizes.wake,
        rations,
    }
}

/// A sheet of the most slots and blowers that leaves no choice: each window is as long as its
/// volume. Most slots have eight feedings, and some have fewer.
pub fn settled_full_sheet(draws: &mut Draws) -> Sheet {
    let mut windows = Vec::new();
    for _ in 0..FULL.blowers {
        // Eight windows cover the day, one after another; not all of them are there.
        let mut ends: Vec<u32> = (0..7).map(|_| draws.between(1, FULL.slots)).collect();
        ends.push(FULL.slots);
        ends.sort();
        ends.dedup();
        let mut first = 1;
        for last in ends {
            if !draws.one_in(12) {
                windows.push((first, last));
            }
            first = last + 1;
        }
    }
    // Sheet order is not that of the day.
    for i in (1..windows.len()).rev() {
        windows.swap(i, draws.index(i + 1));
    }
    let tanks = rising_tanks(draws, windows.len());
    let rations = windows.into_iter().zip(tanks);
    let rations = rations.map(|((first, last), tank)| Ration {
        tank,
        first,
        last,
        volume: last - first + 1,
    });
    Sheet {
        slots: FULL.slots,
        blowers: FULL.blowers,
        wake: some_wake(draws, FULL.wake),
        rations: rations.collect(),
    }
}

/// A sheet of the most slots and blowers and of the most rations or nearly so:
/// tight, crowded or random, or with whole-day windows.
pub fn full_sheet(draws: &mut Draws) -> Sheet {
    let wake = some_wake(draws, FULL.wake);
    let sizes = Sizes { wake, ..FULL };
    let kind = draws.below(5);
    let mut sheet = match kind {
        0..=2 => tight_sheet_of(draws, sizes),
        _ => random_sheet_of(draws, sizes),
    };
    match kind {
        2 | 3 => widen(&mut sheet),
        _ => some_meals(draws, &mut sheet),
    }
    if kind == 1 {
        crowd(draws, &mut sheet);
    }
    sheet
}

/// Such a sheet without a sound placing.
pub fn held_full_sheet(draws: &mut Draws) -> Sheet {
    loop {
        let mut sheet = full_sheet(draws);
        crowd(draws, &mut sheet);
        if shown_set(&sheet).is_some() {
            return sheet;
        }
    }
}

#[cfg(test)]
mod tests {
    use super::*;
    use crate::sheet::read;

    /// Tanks and wake costs are small in most sheets, and some are as great as can be.
    #[test]
    fn tanks_and_wake_costs_of_all_sizes_are_there() {
        let mut draws = Draws::new(110);
        let sheets: Vec<Sheet> = (0..2_000).map(|_| any_sheet(&mut draws, SMALL)).collect();
        let tanks = || sheets.iter().flat_map(|s| &s.rations).map(|r| r.tank);
        let count = |from: u32, to: u32| tanks().filter(|t| (from..=to).contains(t)).count();
        assert!(count(1, 999) > 2_000);
        assert!(count(1_000, 99_999) > 400);
        assert!(count(100_000, MOST_TANK) > 400);
        for edge in TANK_EDGES {
            assert!(count(edge, edge) > 5, "tank {edge}");
            assert!(
                edge == MOST_TANK || count(edge + 1, edge + 1) > 5,
                "tank {edge} + 1"
            );
        }
        assert_eq!(count(0, 0) + count(MOST_TANK + 1, u32::MAX), 0);
        let wakes = |from: u32, to: u32| {
            let within = |s: &&Sheet| (from..=to).contains(&s.wake);
            sheets.iter().filter(within).count()
        };
        assert!(wakes(0, 12) > 1_000);
        assert!(wakes(21, MOST_WAKE) > 100);
        for edge in WAKE_EDGES {
            assert!(wakes(edge, edge) > 5, "wake {edge}");
        }
    }

    /// From one ration to the most, tanks rise and leave room for those to come.
    #[test]
    fn tanks_rise_and_end_in_range() {
        let mut draws = Draws::new(111);
        for count in (0..=64).cycle().take(65 * 60) {
            let tanks = rising_tanks(&mut draws, count);
            assert_eq!(tanks.len(), count);
            assert!(tanks.windows(2).all(|pair| pair[0] < pair[1]));
            assert!(tanks.iter().all(|t| (1..=MOST_TANK).contains(t)));
        }
    }

    #[test]
    fn full_sheets_have_the_greatest_tank_too() {
        let mut draws = Draws::new(112);
        let sheets: Vec<Sheet> = (0..200).map(|_| full_sheet(&mut draws)).collect();
        assert!(sheets.iter().all(|s| read(&s.text()).as_ref() == Ok(s)));
        let ends_last = |s: &&Sheet| s.rations.last().is_some_and(|r| r.tank == MOST_TANK);
        assert!(sheets.iter().filter(ends_last).count() > 2);
    }
}
