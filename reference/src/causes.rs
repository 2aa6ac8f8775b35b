//! A cause for every stretch (request 105): why it cannot be one slot longer, the listing
//! of causes, the call `causes` and the output of the program `why`.
//!
//! A stretch's bounds are those that the method sets in its slots; the bounds in force
//! when it was settled are those of all stretches settled before it. So they are had from
//! the stretches of the plan alone, whatever way the method found them.

use crate::listing::program;
use crate::method::{self, State, Stretch};
use crate::placing::{shown_set, Placing, Question, SlotSet};
use crate::sets::{of_greatest_excess, of_greatest_shortfall};
use crate::sheet::{line_text, read, Refusal, Sheet};

/// The least buffer, and the longest listing however much is lent.
pub const CAUSES_BUFFER: usize = 65_536;

/// Why a stretch cannot be one slot longer, by the number the listing gives it.
#[derive(Clone, Copy, Debug, PartialEq, Eq)]
pub enum Cause {
    Shortfall = 1,
    Excess = 2,
    LowAboveHigh = 3,
}

/// A stretch that ends before the last slot, with its cause and the cause's slots, rising
/// and counted from 1.
#[derive(Clone, Debug, PartialEq, Eq)]
pub struct Entry {
    pub blower: u32,
    pub busy: bool,
    pub last: u32,
    pub cause: Cause,
    pub slots: Vec<u32>,
}

impl Entry {
    fn text(&self) -> Vec<u8> {
        let size = self.slots.len() as u32;
        let mut text = line_text([self.blower, self.last, self.cause as u32, size]).to_vec();
        for &slot in &self.slots {
            text.extend(line_text([slot, 0, 0, 0]));
        }
        text
    }
}

/// The entries of a sheet's plan, in settling order, or the slots shown if it has no sound
/// placing.
pub fn entries(sheet: &Sheet) -> Result<Vec<Entry>, SlotSet> {
    if let Some(shown) = shown_set(sheet) {
        return Err(shown);
    }
    let counts = method::counts(sheet);
    // A placing of these counts keeps every stretch, so that under any bounds in force it
    // lacks at most what one slot more asks for.
    let placing = Question::under(sheet, &counts, &counts)
        .solve(None)
        .expect("the counts are those of a placing");
    let mut bounds = Question::of_day(sheet);
    let mut entries = Vec::new();
    for stretch in settled(sheet, &counts) {
        if stretch.last < sheet.slots {
            let mut longer = bounds.clone();
            set_bounds(&mut longer, &stretch, stretch.last + 1);
            let (cause, slots) = cause(&longer, &placing);
            entries.push(Entry {
                blower: stretch.blower,
                busy: stretch.state == State::Busy,
                last: stretch.last,
                cause,
                slots,
            });
        }
        set_bounds(&mut bounds, &stretch, stretch.last);
    }
    assert_eq!((&bounds.low, &bounds.high), (&counts, &counts));
    Ok(entries)
}

/// The stretches in settling order: by blower from m down, then by slot. A blower that is
/// busy from slot 1 has an idle stretch without slots before that.
fn settled(sheet: &Sheet, counts: &[u32]) -> Vec<Stretch> {
    let stretches = method::stretches(sheet, counts);
    let mut settled = Vec::new();
    for blower in (1..=sheet.blowers).rev() {
        let own = stretches.iter().filter(|s| s.blower == blower);
        for &stretch in own {
            if stretch.first == 1 && stretch.state == State::Busy {
                settled.push(Stretch {
                    last: 0,
                    state: State::Off,
                    ..stretch
                });
            }
            settled.push(stretch);
        }
    }
    settled
}

/// Sets what a stretch asks for from its first slot to `last`.
fn set_bounds(bounds: &mut Question, stretch: &Stretch, last: u32) {
    for t in stretch.first as usize - 1..last as usize {
        match stretch.state {
            State::Busy => bounds.low[t] = bounds.low[t].max(stretch.blower),
            State::Off | State::IdleOn => bounds.high[t] = stretch.blower - 1,
        }
    }
}

/// The first cause that applies under these bounds, with its slots. Whether the stretch is
/// idle or busy has no part in it. The placing serves the flow to start from.
fn cause(bounds: &Question, placing: &Placing) -> (Cause, Vec<u32>) {
    let slots = || 1..=bounds.low.len() as u32;
    let crossed = |&t: &u32| bounds.low[t as usize - 1] > bounds.high[t as usize - 1];
    if let Some(slot) = slots().find(crossed) {
        return (Cause::LowAboveHigh, vec![slot]);
    }
    let members = |set: SlotSet| slots().filter(|&t| set[t as usize - 1]).collect();
    let set = of_greatest_shortfall(bounds, Some(placing));
    if bounds.shortfall(&set) > 0 {
        return (Cause::Shortfall, members(set));
    }
    let set = of_greatest_excess(bounds, Some(placing));
    // Where no cause applies, a sound placing exists, and the stretch would be longer.
    assert!(bounds.excess(&set) > 0, "one cause applies");
    (Cause::Excess, members(set))
}

/// The listing of these entries, and whether it was cut: it has as many whole entries from
/// the first on as its longest holds, and the first that does not fit ends it.
pub fn listing(entries: &[Entry]) -> (Vec<u8>, bool) {
    let mut listing = Vec::new();
    for entry in entries {
        let text = entry.text();
        if listing.len() + text.len() > CAUSES_BUFFER {
            return (listing, true);
        }
        listing.extend(text);
    }
    (listing, false)
}

/// The call for the causes: number, line, length and whether the listing was cut. Checks 1
/// to 9 and 13, 10 for the lent buffer, then 12, for which nothing is written. Bytes after
/// the listing keep their values.
pub fn causes(bytes: &[u8], buffer: &mut [u8]) -> (u32, u32, usize, bool) {
    let sheet = match read(bytes) {
        Ok(sheet) => sheet,
        Err(Refusal { number, line }) => return (number, line, 0, false),
    };
    if buffer.len() < CAUSES_BUFFER {
        return (10, 0, 0, false);
    }
    match entries(&sheet) {
        Ok(entries) => {
            let (text, cut) = listing(&entries);
            buffer[..text.len()].copy_from_slice(&text);
            (0, 0, text.len(), cut)
        }
        Err(_) => (12, 0, 0, false),
    }
}

/// The program's whole output for the bytes of its standard input: the listing of causes,
/// and for every refusal, 12 included, what the first program writes.
pub fn why(bytes: &[u8]) -> Vec<u8> {
    match read(bytes).map(|sheet| entries(&sheet)) {
        Ok(Ok(entries)) => listing(&entries).0,
        _ => program(bytes),
    }
}
