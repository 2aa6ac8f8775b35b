//! Parallel Left-to-Right, slot by slot, and the choice of feedings.

use crate::loads::{full_highs, Placing};
use crate::search::{push_along, shift};
use crate::sheet::Sheet;
use crate::{Bytes, Words, SLOTS};

/// A day planned: the count and the rations of each slot.
pub struct Day {
    pub counts: Bytes,
    pub fed: Words,
}

/// A day held: the slots shown, and what is forced into them.
pub struct Held {
    pub marks: Bytes,
    pub forced: u32,
}

fn settle(placing: &mut Placing, sheet: &Sheet) {
    for k in (1..=sheet.blowers).rev() {
        let mut is_busy = false;
        for t in 0..sheet.slots {
            if is_busy {
                if !placing.busy(t, k) {
                    placing.idle(t, k);
                    is_busy = false;
                }
            } else if !placing.idle(t, k) {
                placing.busy(t, k);
                is_busy = true;
            }
        }
    }
}

/// Whether ration j is fed in slot t, all choices made before kept. `may` has the rations
/// that can still be fed there, and perhaps others.
fn feed(placing: &mut Placing, may: &mut u64, t: usize, j: usize) -> bool {
    let ration = 1u64 << j;
    if placing.fed[t] & ration != 0 {
        placing.fed[t] ^= ration;
        placing.high[t] -= 1;
        return true;
    }
    if placing.rest[t] & ration == 0 {
        return false;
    }
    placing.rest[t] ^= ration;
    if placing.high[t] == 0 || *may & ration == 0 {
        return false;
    }
    let Placing {
        fed,
        rest,
        high,
        seen,
        ..
    } = placing;
    let from = fed[t];
    let is_partner = |&z: &usize| fed[z] & ration != 0 && from & rest[z] != 0;
    let found = if let Some(z) = (t + 1..SLOTS).find(is_partner) {
        fed[z] ^= ration;
        rest[z] ^= ration;
        shift(fed, rest, t, z);
        true
    } else {
        let Some(z) = (0..SLOTS).find(|&z| fed[z] & ration != 0) else {
            return false;
        };
        fed[z] ^= ration;
        rest[z] ^= ration;
        seen.fill(0);
        let found = push_along(fed, rest, high, seen, t);
        if found {
            seen.fill(1);
        } else {
            fed[z] ^= ration;
            rest[z] ^= ration;
        }
        let marked = fed.iter().zip(&*seen).filter(|(_, &mark)| mark != 0);
        *may = marked.fold(0, |word, (fed, _)| word | fed);
        found
    };
    if found {
        high[t] -= 1;
    }
    found
}

pub fn plan_day(sheet: &Sheet) -> Result<Day, Held> {
    let (mut placing, within) = Placing::begin(sheet, &full_highs(sheet));
    if !within {
        let loads = placing.fed.iter().zip(&placing.seen);
        let marked = loads.filter(|(_, &mark)| mark != 0);
        return Err(Held {
            forced: marked.map(|(word, _)| word.count_ones()).sum(),
            marks: placing.seen,
        });
    }
    settle(&mut placing, sheet);
    let counts = placing.high;
    let mut fed = [0; SLOTS];
    for (t, word) in fed[..sheet.slots].iter_mut().enumerate() {
        let mut may = placing.fed.iter().fold(0, |word, fed| word | fed);
        for j in 0..sheet.rations {
            if feed(&mut placing, &mut may, t, j) {
                *word |= 1 << j;
            }
        }
    }
    Ok(Day { counts, fed })
}
