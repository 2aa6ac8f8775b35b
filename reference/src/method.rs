//! Parallel Left-to-Right: the counts, the feedings, the stretches, the energy and the
//! charge.
//!
//! Slot t of the paper stands at index t − 1 of every list.

use crate::bill;
use crate::placing::{full_highs, shown_set_under, Placing, Question, SlotSet};
use crate::sheet::Sheet;

/// What a blower does in a stretch, by the number the listing gives it.
#[derive(Clone, Copy, Debug, PartialEq, Eq)]
pub enum State {
    Off = 0,
    IdleOn = 1,
    Busy = 2,
}

/// A longest run of slots in which a blower is busy or idle throughout; first and
/// last are slots of the paper, counted from 1.
#[derive(Clone, Copy, Debug, PartialEq, Eq)]
pub struct Stretch {
    pub blower: u32,
    pub first: u32,
    pub last: u32,
    pub state: State,
}

/// One feeding: slot, blower and tank, and which of the meal's feedings it is.
#[derive(Clone, Copy, Debug, PartialEq, Eq)]
pub struct Feeding {
    pub slot: u32,
    pub blower: u32,
    pub tank: u32,
    pub part: u32,
}

/// All that the method settles for a day.
#[derive(Clone, Debug, PartialEq, Eq)]
pub struct Plan {
    /// The feedings of each slot.
    pub counts: Vec<u32>,
    pub placing: Placing,
    /// By blower from 1, then slot.
    pub stretches: Vec<Stretch>,
    /// By slot, then blower.
    pub feedings: Vec<Feeding>,
    pub starts: u32,
    pub energy: u32,
    /// In tenths of a cent, not yet rounded.
    pub charge: u32,
}

/// The plan of a sheet, or the slots shown if it has no sound placing.
pub fn plan(sheet: &Sheet) -> Result<Plan, SlotSet> {
    plan_under(sheet, &full_highs(sheet))
}

/// The same under these highs, each at most the sheet's blowers.
pub fn plan_under(sheet: &Sheet, highs: &[u32]) -> Result<Plan, SlotSet> {
    if let Some(set) = shown_set_under(sheet, highs) {
        return Err(set);
    }
    let counts = counts_under(sheet, highs);
    let placing = choose_feedings(sheet, &counts);
    let stretches = stretches(sheet, &counts);
    let starts = starts(&stretches);
    Ok(Plan {
        feedings: feedings(sheet, &placing),
        energy: on_slots(&stretches) + sheet.wake * starts,
        charge: bill::charge(sheet.wake, &stretches),
        starts,
        stretches,
        placing,
        counts,
    })
}

/// The bounds while the method narrows them, with a placing that is sound under them.
struct Bounds {
    question: Question,
    placing: Placing,
}

impl Bounds {
    /// Takes over one slot's bounds if a sound placing exists with them, and says so.
    fn keep_if_sound(&mut self, slot: usize, low: u32, high: u32) -> bool {
        let mut narrower = self.question.clone();
        narrower.low[slot] = low;
        narrower.high[slot] = high;
        // The placing at hand may do already.
        if !narrower.is_sound(&self.placing) {
            match narrower.solve(Some(&self.placing)) {
                Ok(placing) => self.placing = placing,
                Err(_) => return false,
            }
        }
        self.question = narrower;
        true
    }
}

/// The count of each slot, for a sheet with a sound placing.
pub fn counts(sheet: &Sheet) -> Vec<u32> {
    counts_under(sheet, &full_highs(sheet))
}

/// The same under these highs, for a sheet with a sound placing under them.
///
/// The longest run is found one slot after another: a longer run asks for more, so
/// where a run fails every longer one fails too. A high may be below k − 1 from the
/// start, and the idle step does not raise it.
pub fn counts_under(sheet: &Sheet, highs: &[u32]) -> Vec<u32> {
    let question = Question::below(sheet, highs);
    let placing = question.solve(None).expect("the sheet has a sound placing");
    let mut bounds = Bounds { question, placing };
    let day = sheet.slots as usize;
    for k in (1..=sheet.blowers).rev() {
        let mut slot = 0;
        while slot < day {
            let begin = slot;
            while slot < day {
                let low = bounds.question.low[slot];
                let high = bounds.question.high[slot].min(k - 1);
                if !bounds.keep_if_sound(slot, low, high) {
                    break;
                }
                slot += 1;
            }
            while slot < day {
                let low = bounds.question.low[slot].max(k);
                let high = bounds.question.high[slot];
                if !bounds.keep_if_sound(slot, low, high) {
                    break;
                }
                slot += 1;
            }
            assert!(slot > begin, "a blower is either idle or busy");
        }
    }
    assert_eq!(bounds.question.low, bounds.question.high);
    bounds.question.low
}

/// The feedings: slots rising, in each slot rations in sheet order; a ration is fed
/// if some sound placing with these counts and all choices before does so.
pub fn choose_feedings(sheet: &Sheet, counts: &[u32]) -> Placing {
    let day = sheet.slots as usize;
    let mut left = Question::under(sheet, counts, counts);
    // A sound placing of what is left.
    let mut known = left.solve(None).expect("the counts are those of a placing");
    let mut chosen = vec![vec![false; day]; sheet.rations.len()];
    for slot in 0..day {
        for (i, row) in chosen.iter_mut().enumerate() {
            if !left.open[i][slot] {
                continue;
            }
            let fed_here = left.settled(i, slot, true).and_then(|fed| {
                let mut other = known.clone();
                other[i][slot] = false;
                let placing = if known[i][slot] {
                    other
                } else {
                    fed.solve(Some(&other)).ok()?
                };
                Some((fed, placing))
            });
            match fed_here {
                Some((fed, placing)) => {
                    row[slot] = true;
                    (left, known) = (fed, placing);
                }
                None => {
                    left = left
                        .settled(i, slot, false)
                        .expect("leaving a cell out is no fault");
                }
            }
        }
    }
    assert!(Question::under(sheet, counts, counts).is_sound(&chosen));
    chosen
}

/// The stretches of every blower, by blower from 1, then slot. Blower k is busy in
/// the slots that hold at least k feedings.
pub fn stretches(sheet: &Sheet, counts: &[u32]) -> Vec<Stretch> {
    let mut stretches = Vec::new();
    for blower in 1..=sheet.blowers {
        let busy: Vec<bool> = counts.iter().map(|&count| count >= blower).collect();
        let mut first = 1;
        for run in busy.chunk_by(|a, b| a == b) {
            let length = run.len() as u32;
            let last = first + length - 1;
            // Off at both ends of the day, at any length (request 101).
            let at_end = first == 1 || last == sheet.slots;
            let state = match run[0] {
                true => State::Busy,
                false if at_end || length >= sheet.wake => State::Off,
                false => State::IdleOn,
            };
            stretches.push(Stretch {
                blower,
                first,
                last,
                state,
            });
            first += length;
        }
    }
    stretches
}

/// Steps from off to on; every blower is off before slot 1.
fn starts(stretches: &[Stretch]) -> u32 {
    let mut starts = 0;
    let mut before = State::Off;
    for stretch in stretches {
        if stretch.first == 1 {
            before = State::Off;
        }
        if before == State::Off && stretch.state != State::Off {
            starts += 1;
        }
        before = stretch.state;
    }
    starts
}

/// Slots in which a blower is on, over all blowers.
fn on_slots(stretches: &[Stretch]) -> u32 {
    let on = stretches.iter().filter(|s| s.state != State::Off);
    on.map(|s| s.last - s.first + 1).sum()
}

/// The feedings of a placing: in a slot, fed rations take blowers 1, 2, .. in sheet
/// order; parts count the feedings of a meal, so that each ration line begins at 1.
fn feedings(sheet: &Sheet, placing: &Placing) -> Vec<Feeding> {
    let mut parts = vec![0; sheet.rations.len()];
    let mut feedings = Vec::new();
    for slot in 1..=sheet.slots {
        let mut blower = 0;
        for (i, ration) in sheet.rations.iter().enumerate() {
            if placing[i][slot as usize - 1] {
                blower += 1;
                parts[i] += 1;
                feedings.push(Feeding {
                    slot,
                    blower,
                    tank: ration.tank,
                    part: parts[i],
                });
            }
        }
    }
    feedings
}
