//! Why the stretches of a plan end where they do.
use crate::listing;
use std::slice;

/// Why a stretch is not a slot longer: what stands in the way of a plan that keeps all stretches settled before it and
/// has this one a slot longer. The first of the three that applies, in this order.
///
/// Stretches are settled by blower from the last down to 1, then by slot. An idle stretch has a low above a high or a
/// shortfall, a busy one a low above a high or an excess.
#[derive(Clone, Debug, PartialEq, Eq, Hash)]
pub enum Cause {
    /// 3: a slot's low is above its high: it would have to hold more feedings than it may.
    LowAboveHigh {
        /// The lowest such slot.
        slot: u32,
    },
    /// 1: more feedings are forced into some slots than the blowers may make there.
    Shortfall {
        /// The slots, rising: those contained in every set of slots with the greatest shortfall.
        slots: Vec<u32>,
    },
    /// 2: fewer feedings are possible in some slots than the blowers would have to make there.
    Excess {
        /// The slots, rising: those contained in every set of slots with the greatest excess.
        slots: Vec<u32>,
    },
}

impl Cause {
    /// The number that the listing gives it.
    pub fn number(&self) -> u32 {
        match self {
            Cause::Shortfall { .. } => 1,
            Cause::Excess { .. } => 2,
            Cause::LowAboveHigh { .. } => 3,
        }
    }

    /// The set of slots that shows it, rising: of a low above a high, the one slot.
    pub fn slots(&self) -> &[u32] {
        match self {
            Cause::LowAboveHigh { slot } => slice::from_ref(slot),
            Cause::Shortfall { slots } | Cause::Excess { slots } => slots,
        }
    }
}

/// A stretch that ends before the day's last slot, and why it does.
#[derive(Clone, Debug, PartialEq, Eq, Hash)]
pub struct Ending {
    /// The blower, from 1.
    pub blower: u32,
    /// The stretch's last slot. It is 0 for a blower that is busy from slot 1: why it is not idle first.
    pub last: u32,
    /// Why the stretch is not a slot longer.
    pub cause: Cause,
}

/// The causes of a day's plan.
#[derive(Clone, Debug, PartialEq, Eq)]
pub struct Causes {
    endings: Vec<Ending>,
    cut: bool,
    listing: Vec<u8>,
}

impl Causes {
    pub(crate) fn new(listing: Vec<u8>, cut: bool) -> Causes {
        Causes {
            endings: endings_in(&listing),
            cut,
            listing,
        }
    }

    /// Every stretch that ends before the day's last slot, as they are settled: by blower from the last down to 1, then
    /// by slot. Where the listing was cut, as many of them from the first on as it holds.
    pub fn endings(&self) -> &[Ending] {
        &self.endings
    }

    /// Whether the listing was cut, because it would have been longer than 65,536 bytes.
    pub fn is_cut(&self) -> bool {
        self.cut
    }

    /// The listing's bytes.
    pub fn listing(&self) -> &[u8] {
        &self.listing
    }
}

/// The entries of a listing, each a line and then one for each of its slots.
fn endings_in(listing: &[u8]) -> Vec<Ending> {
    let mut lines = listing::lines(listing);
    let mut endings = Vec::new();
    while let Some([blower, last, number, size]) = lines.next() {
        let slots = lines.by_ref().take(size as usize);
        let slots: Vec<u32> = slots.map(|[slot, ..]| slot).collect();
        let cause = match (number, &slots[..]) {
            (1, _) => Cause::Shortfall { slots },
            (2, _) => Cause::Excess { slots },
            (3, &[slot]) => Cause::LowAboveHigh { slot },
            _ => unreachable!("cause {number} with {size} slots in a listing"),
        };
        endings.push(Ending {
            blower,
            last,
            cause,
        });
    }
    endings
}
