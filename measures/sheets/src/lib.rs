//! The sheets that times are measured on: every one of the stated sizes, and of a
//! kind that says whether it is planned or held. Those that answers are compared on
//! are in `mixture`, in `groups` where several halls are planned together, in `pairs`
//! where two are compared with each other, and in `short` where rations are cut.

pub mod groups;
pub mod mixture;
pub mod pack;
pub mod pairs;
pub mod short;

use reference::draws::Draws;
use reference::placing::shown_set;
use reference::sheet::{Ration, Sheet};

/// Slots, blowers and rations of a sheet.
#[derive(Clone, Copy, Debug, PartialEq, Eq)]
pub struct Sizes {
    pub slots: u32,
    pub blowers: u32,
    pub rations: u32,
}

/// The most that a sheet can have.
pub const FULL: Sizes = Sizes {
    slots: 96,
    blowers: 8,
    rations: 64,
};

#[derive(Clone, Copy, Debug, PartialEq, Eq)]
pub enum Kind {
    /// Every window is the whole day; from six tenths of the capacity to all of it is asked for. Planned.
    WholeDay,
    /// Windows of all lengths. Planned.
    Mixed,
    /// Made around a hidden placing, with windows hardly wider than the slots chosen. Planned.
    Tight,
    /// A tight sheet with volumes raised until it is held.
    Held,
    /// A whole-day sheet with all volumes raised by one factor, from 1.1 to 4. Held.
    OverloadedWholeDay,
    /// Such a mixed sheet. Held.
    OverloadedMixed,
    /// Windows up to a length that is drawn from a sixth to half of the day; at least half of each is asked for. Held.
    OverloadedShort,
}

pub const KINDS: [Kind; 4] = [Kind::WholeDay, Kind::Mixed, Kind::Tight, Kind::Held];

/// Those that rations are cut on: some fit, some lack little, and some ask for more, up to a multiple of what can be fed.
pub const SHARE_KINDS: [Kind; 7] = [
    Kind::WholeDay,
    Kind::Mixed,
    Kind::Tight,
    Kind::Held,
    Kind::OverloadedWholeDay,
    Kind::OverloadedMixed,
    Kind::OverloadedShort,
];

impl Kind {
    pub fn name(self) -> &'static str {
        match self {
            Kind::WholeDay => "whole-day",
            Kind::Mixed => "mixed",
            Kind::Tight => "tight",
            Kind::Held => "held",
            Kind::OverloadedWholeDay => "overloaded-whole-day",
            Kind::OverloadedMixed => "overloaded-mixed",
            Kind::OverloadedShort => "overloaded-short",
        }
    }

    pub fn named(name: &str) -> Option<Self> {
        SHARE_KINDS.into_iter().find(|kind| kind.name() == name)
    }
}

/// `count` sheets of one kind and size.
pub fn sheets(kind: Kind, sizes: Sizes, count: usize, seed: u32) -> Vec<Sheet> {
    let draws = &mut Draws::new(seed);
    (0..count).map(|_| one(kind, sizes, draws)).collect()
}

fn one(kind: Kind, sizes: Sizes, draws: &mut Draws) -> Sheet {
    match kind {
        Kind::WholeDay => whole_day(sizes, draws),
        Kind::Mixed => mixed(sizes, draws),
        Kind::Tight => tight(sizes, draws),
        Kind::Held => held(sizes, draws),
        Kind::OverloadedWholeDay => overloaded(whole_day, sizes, draws),
        Kind::OverloadedMixed => overloaded(mixed, sizes, draws),
        Kind::OverloadedShort => overloaded_short(sizes, draws),
    }
}

fn sheet(sizes: Sizes, draws: &mut Draws, windows: Vec<(u32, u32, u32)>) -> Sheet {
    let tanks = (1..).map(|i| i * 15);
    let rations = windows.into_iter().zip(tanks);
    Sheet {
        slots: sizes.slots,
        blowers: sizes.blowers,
        wake: draws.between(0, 12),
        rations: rations
            .map(|((first, last, volume), tank)| Ration {
                tank,
                first,
                last,
                volume,
            })
            .collect(),
    }
}

fn whole_day(sizes: Sizes, draws: &mut Draws) -> Sheet {
    let Sizes {
        slots,
        blowers,
        rations,
    } = sizes;
    let most = (slots * blowers).min(slots * rations);
    let asked = (most * draws.between(60, 100) / 100).max(rations);
    let mut volumes = vec![1; rations as usize];
    let mut left = asked - rations;
    while left > 0 {
        let i = draws.index(volumes.len());
        if volumes[i] < slots {
            volumes[i] += 1;
            left -= 1;
        }
    }
    let windows = volumes.into_iter().map(|volume| (1, slots, volume));
    sheet(sizes, draws, windows.collect())
}

fn mixed(sizes: Sizes, draws: &mut Draws) -> Sheet {
    let Sizes {
        slots,
        blowers,
        rations,
    } = sizes;
    let mut most = (slots * blowers * 3 / 2 / rations).max(1);
    for tries in 1.. {
        // Where hardly any such sheet has a plan, less is asked for.
        if tries % 50 == 0 {
            most = (most - most.div_ceil(8)).max(1);
        }
        let windows = (0..rations).map(|_| {
            let length = draws.between(slots.div_ceil(12), slots);
            let first = draws.between(1, slots - length + 1);
            let volume = draws.between(1, most.min(length));
            (first, first + length - 1, volume)
        });
        let windows = windows.collect();
        let sheet = sheet(sizes, draws, windows);
        if shown_set(&sheet).is_none() {
            return sheet;
        }
    }
    unreachable!("the loop ends with a sheet")
}

fn tight(sizes: Sizes, draws: &mut Draws) -> Sheet {
    let Sizes {
        slots,
        blowers,
        rations,
    } = sizes;
    // Rations near each other in the list are fed near each other in the day.
    let near = rations.min(12.max(blowers + 4)) as usize;
    loop {
        let mut fed = vec![Vec::new(); rations as usize];
        for slot in 1..=slots {
            let from = (slot as usize - 1) * (fed.len() - near + 1) / slots as usize;
            let mut choice: Vec<usize> = (from..from + near).collect();
            let full = blowers.min(near as u32);
            let feedings = if draws.one_in(4) {
                draws.between(0, full)
            } else {
                full
            };
            for _ in 0..feedings {
                let chosen = choice.swap_remove(draws.index(choice.len()));
                fed[chosen].push(slot);
            }
        }
        if fed.iter().any(Vec::is_empty) {
            continue;
        }
        let windows = fed.iter().map(|own| {
            let first = own[0].saturating_sub(draws.below(4)).max(1);
            let last = (own[own.len() - 1] + draws.below(4)).min(slots);
            (first, last, own.len() as u32)
        });
        let windows = windows.collect();
        return sheet(sizes, draws, windows);
    }
}

fn held(sizes: Sizes, draws: &mut Draws) -> Sheet {
    loop {
        let mut sheet = tight(sizes, draws);
        for _ in 0..8 {
            // Some at a time, since each question costs a flow.
            for _ in 0..sheet.rations.len().div_ceil(8) {
                let i = draws.index(sheet.rations.len());
                let ration = &mut sheet.rations[i];
                let window = ration.last - ration.first + 1;
                ration.volume = draws.between(ration.volume, window);
            }
            if shown_set(&sheet).is_some() {
                return sheet;
            }
        }
    }
}

fn overloaded_short(sizes: Sizes, draws: &mut Draws) -> Sheet {
    let slots = sizes.slots;
    loop {
        let longest = draws.between(slots.div_ceil(6), slots.div_ceil(2));
        let windows = (0..sizes.rations).map(|_| {
            let length = draws.between(slots.div_ceil(24), longest);
            let first = draws.between(1, slots - length + 1);
            let volume = draws.between(length.div_ceil(2), length);
            (first, first + length - 1, volume)
        });
        let windows = windows.collect();
        let sheet = sheet(sizes, draws, windows);
        if shown_set(&sheet).is_some() {
            return sheet;
        }
    }
}

fn overloaded(make: fn(Sizes, &mut Draws) -> Sheet, sizes: Sizes, draws: &mut Draws) -> Sheet {
    loop {
        let mut sheet = make(sizes, draws);
        raise(&mut sheet, draws);
        if shown_set(&sheet).is_some() {
            return sheet;
        }
    }
}

/// Raises all volumes by one factor, from 1.1 to 4, each to the length of its window at most.
fn raise(sheet: &mut Sheet, draws: &mut Draws) {
    let tenths = draws.between(11, 40);
    for ration in &mut sheet.rations {
        let window = ration.last - ration.first + 1;
        ration.volume = (ration.volume * tenths / 10).min(window);
    }
}
