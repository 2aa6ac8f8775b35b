//! What planning gives: a plan, or the slots that show why there is none.
use crate::ffi;
use crate::listing;
use std::error::Error;
use std::{fmt, iter};

/// What a blower does during a stretch.
#[derive(Clone, Copy, Debug, PartialEq, Eq, Hash)]
pub enum State {
    /// Idle and switched off: at an end of the day, or for at least the wake cost.
    Off,
    /// Idle within the day, and kept on because a start would cost more.
    IdleOn,
    /// Feeding.
    Busy,
}

/// A longest run of slots in which a blower does the same.
#[derive(Clone, Copy, Debug, PartialEq, Eq, Hash)]
pub struct Stretch {
    /// The blower, from 1.
    pub blower: u32,
    /// The first slot, from 1.
    pub first: u32,
    /// The last slot.
    pub last: u32,
    /// What the blower does.
    pub state: State,
}

/// One feeding of one meal.
#[derive(Clone, Copy, Debug, PartialEq, Eq, Hash)]
pub struct Feeding {
    /// The slot, from 1.
    pub slot: u32,
    /// The blower that feeds, from 1.
    pub blower: u32,
    /// The tank that is fed.
    pub tank: u32,
    /// 1 for the meal's first feeding, then 2, ..
    pub part: u32,
}

/// The plan of a day.
#[derive(Clone, Debug, PartialEq, Eq)]
pub struct Plan {
    energy: u32,
    starts: u32,
    stretches: Vec<Stretch>,
    feedings: Vec<Feeding>,
    bill: u32,
    listing: Vec<u8>,
    /// A word for each slot, in which bit i is 1 if ration i is fed there, slots and rations counted from 0.
    placing: Vec<u64>,
    /// The tank of each ration, in sheet order.
    tanks: Vec<u32>,
}

impl Plan {
    /// Of the library's listing and placing, and the tank of each ration of the sheet.
    pub(crate) fn new(listing: Vec<u8>, placing: Vec<u64>, tanks: Vec<u32>) -> Plan {
        let mut lines = listing::lines_after_word(&listing);
        let [energy, starts, stretches, feedings] =
            lines.next().expect("a plan has its first line");
        let stretches = lines
            .by_ref()
            .take(stretches as usize)
            .map(|[blower, first, last, state]| Stretch {
                blower,
                first,
                last,
                state: match state {
                    0 => State::Off,
                    1 => State::IdleOn,
                    2 => State::Busy,
                    _ => unreachable!("state {state} in a listing"),
                },
            })
            .collect();
        let feedings = lines
            .by_ref()
            .take(feedings as usize)
            .map(|[slot, blower, tank, part]| Feeding {
                slot,
                blower,
                tank,
                part,
            })
            .collect();
        let [hundreds, remaining, ..] = lines.last().expect("a plan ends with its bill");
        Plan {
            energy,
            starts,
            stretches,
            feedings,
            bill: 100 * hundreds + remaining,
            listing,
            placing,
            tanks,
        }
    }

    /// The slots in which blowers are on, and the wake cost for each start.
    pub fn energy(&self) -> u32 {
        self.energy
    }

    /// How often a blower is switched on.
    pub fn starts(&self) -> u32 {
        self.starts
    }

    /// The day's power bill in whole cents: each energy unit at the rate of its hour, a start's at that of its first on
    /// slot; the sum over all blowers, rounded, halves upward.
    pub fn bill(&self) -> u32 {
        self.bill
    }

    /// Every stretch of every blower, by blower, then slot.
    pub fn stretches(&self) -> &[Stretch] {
        &self.stretches
    }

    /// Every feeding, by slot, then blower.
    pub fn feedings(&self) -> &[Feeding] {
        &self.feedings
    }

    /// Whether a ration, counted from 0 in sheet order, is fed in a slot, counted from 1; false for a ration or a slot
    /// that the day does not have.
    pub fn is_fed(&self, ration: usize, slot: u32) -> bool {
        ration < ffi::MAX_RATIONS && self.word(slot) >> ration & 1 == 1
    }

    /// The rations fed in a slot, rising: rations are counted from 0 in sheet order, slots from 1. There are none in a
    /// slot that the day does not have. Of the placing, this reads the slot's one word alone.
    pub fn rations_in(&self, slot: u32) -> impl Iterator<Item = usize> + '_ {
        let mut left = self.word(slot);
        iter::from_fn(move || {
            let lowest = left.trailing_zeros() as usize;
            // the lowest bit goes; 0 has none
            left &= left.checked_sub(1)?;
            Some(lowest)
        })
    }

    /// The tanks fed in a slot, rising: those of [`Plan::rations_in`]. Slots are counted from 1. None comes twice, since
    /// the windows of a tank's meals have no slot in common.
    ///
    /// ```
    /// use kiwimound::Sheet;
    ///
    /// let sheet = Sheet::read(concat!(
    ///     "     2     2     1     2\n",
    ///     "     4     1     2     2\n",
    ///     "     9     1     1     1\n",
    /// ))?;
    /// let plan = sheet.plan()?;
    /// assert!(plan.tanks_in(1).eq([4, 9]));
    /// assert!(plan.tanks_in(2).eq([4]));
    /// # Ok::<(), Box<dyn std::error::Error>>(())
    /// ```
    pub fn tanks_in(&self, slot: u32) -> impl Iterator<Item = u32> + '_ {
        self.rations_in(slot).map(|ration| self.tanks[ration])
    }

    /// How many feedings a slot holds.
    pub fn count(&self, slot: u32) -> usize {
        self.word(slot).count_ones() as usize
    }

    /// The word of a slot, counted from 1; 0 for a slot that the day does not have.
    fn word(&self, slot: u32) -> u64 {
        let place = (slot as usize).checked_sub(1);
        let word = place.and_then(|place| self.placing.get(place));
        word.copied().unwrap_or(0)
    }

    /// The listing's bytes: of a sheet planned alone, as the program `planner` writes them.
    pub fn listing(&self) -> &[u8] {
        &self.listing
    }
}

/// A sheet held for want of blowers: the least set of slots that shows it.
#[derive(Clone, Debug, PartialEq, Eq)]
pub struct Held {
    /// The slots, rising: those contained in every set of slots with the greatest shortfall.
    pub slots: Vec<u32>,
    /// The feedings that are forced into them.
    pub forced: u32,
    /// The feedings that the blowers can make in them, fewer than are forced; of a hall, those that the halls before it
    /// leave it there.
    pub capacity: u32,
}

impl Held {
    pub(crate) fn new(listing: &[u8]) -> Held {
        let mut lines = listing::lines_after_word(listing);
        let [_, _, forced, capacity] = lines
            .next()
            .expect("a held sheet's listing has its line of counts");
        Held {
            slots: lines.map(|[slot, ..]| slot).collect(),
            forced,
            capacity,
        }
    }
}

impl fmt::Display for Held {
    fn fmt(&self, f: &mut fmt::Formatter<'_>) -> fmt::Result {
        write!(
            f,
            "held: forced {}, capacity {}, slots",
            self.forced, self.capacity
        )?;
        self.slots.iter().try_for_each(|slot| write!(f, " {slot}"))
    }
}

impl Error for Held {}
