//! Sound placings under bounds, and the counts of slot sets: forced, shortfall,
//! possible and excess.
//!
//! Slot t of the paper stands at index t − 1 of every list.

use crate::flow::Network;
use crate::sheet::{read, Refusal, Sheet};

/// For each ration, for each slot, whether the ration is fed in it.
pub type Placing = Vec<Vec<bool>>;

/// A set of slots: for each slot of the day, whether it belongs to the set.
pub type SlotSet = Vec<bool>;

/// A question for a sound placing: each ration is to have exactly its volume of
/// open slots, and each slot from low to high feedings.
#[derive(Clone, Debug)]
pub struct Question {
    /// For each ration, the slots it may still be given.
    pub open: Vec<Vec<bool>>,
    /// For each ration, the slots it is still owed.
    pub volume: Vec<u32>,
    pub low: Vec<u32>,
    pub high: Vec<u32>,
}

/// Why there is no sound placing.
#[derive(Clone, Debug, PartialEq, Eq)]
pub enum Obstacle {
    /// A slot's low is above its high.
    LowAboveHigh,
    /// A set of slots with a shortfall above zero. If every low is 0, this is the
    /// set contained in every set of greatest shortfall.
    Shortfall(SlotSet),
    /// A set of slots with an excess above zero.
    Excess(SlotSet),
}

impl Question {
    /// The sheet's rations under the given bounds.
    pub fn under(sheet: &Sheet, low: &[u32], high: &[u32]) -> Self {
        let windows = sheet
            .rations
            .iter()
            .map(|r| (1..=sheet.slots).map(|t| r.window_holds(t)).collect());
        Question {
            open: windows.collect(),
            volume: sheet.rations.iter().map(|r| r.volume).collect(),
            low: low.to_vec(),
            high: high.to_vec(),
        }
    }

    /// The sheet's rations under highs alone: every low is 0.
    pub fn below(sheet: &Sheet, high: &[u32]) -> Self {
        Question::under(sheet, &vec![0; high.len()], high)
    }

    /// The sheet's rations where no further bound is given: low 0 and high m.
    pub fn of_day(sheet: &Sheet) -> Self {
        Question::below(sheet, &full_highs(sheet))
    }

    /// forced(Q): what each ration cannot place outside Q.
    pub fn forced(&self, set: &[bool]) -> u32 {
        let forced = |(open, volume): (&Vec<bool>, &u32)| {
            let outside = open.iter().zip(set).filter(|(&o, &q)| o && !q).count() as u32;
            volume.saturating_sub(outside)
        };
        self.open.iter().zip(&self.volume).map(forced).sum()
    }

    /// possible(Q): what each ration can place inside Q.
    pub fn possible(&self, set: &[bool]) -> u32 {
        let possible = |(open, volume): (&Vec<bool>, &u32)| {
            let inside = open.iter().zip(set).filter(|(&o, &q)| o && q).count() as u32;
            inside.min(*volume)
        };
        self.open.iter().zip(&self.volume).map(possible).sum()
    }

    /// The sum of high over Q.
    pub fn capacity(&self, set: &[bool]) -> u32 {
        sum_over(set, &self.high)
    }

    /// shortfall(Q): forced(Q) less the sum of high over Q.
    pub fn shortfall(&self, set: &[bool]) -> i32 {
        self.forced(set) as i32 - self.capacity(set) as i32
    }

    /// excess(Q): the sum of low over Q less possible(Q).
    pub fn excess(&self, set: &[bool]) -> i32 {
        sum_over(set, &self.low) as i32 - self.possible(set) as i32
    }

    /// Whether the placing gives each ration its volume of open slots and each slot
    /// from low to high feedings.
    pub fn is_sound(&self, placing: &Placing) -> bool {
        let ration_is_sound = |i: usize| {
            let only_open = placing[i].iter().zip(&self.open[i]).all(|(&p, &o)| o || !p);
            let slots = placing[i].iter().filter(|&&p| p).count() as u32;
            only_open && slots == self.volume[i]
        };
        let slot_is_sound = |t: usize| {
            let feedings = placing.iter().filter(|row| row[t]).count() as u32;
            self.low[t] <= feedings && feedings <= self.high[t]
        };
        (0..self.volume.len()).all(ration_is_sound) && (0..self.low.len()).all(slot_is_sound)
    }

    /// A sound placing, or what stands in its way, by the max flow of document 000,
    /// lemma 1. The flow may start from a placing known before, sound or not; this
    /// changes nothing but the time.
    pub fn solve(&self, start: Option<&Placing>) -> Result<Placing, Obstacle> {
        let answer = self.solve_by_flow(start);
        // Whatever the flow says is checked by what it shows.
        match &answer {
            Ok(placing) => assert!(self.is_sound(placing)),
            Err(Obstacle::LowAboveHigh) => {}
            Err(Obstacle::Shortfall(set)) => assert!(self.shortfall(set) > 0),
            Err(Obstacle::Excess(set)) => assert!(self.excess(set) > 0),
        }
        answer
    }

    fn solve_by_flow(&self, start: Option<&Placing>) -> Result<Placing, Obstacle> {
        let (rations, slots) = (self.volume.len(), self.low.len());
        if (0..slots).any(|t| self.low[t] > self.high[t]) {
            return Err(Obstacle::LowAboveHigh);
        }
        let volume: u32 = self.volume.iter().sum();
        let lows: u32 = self.low.iter().sum();
        if lows > volume {
            return Err(Obstacle::Excess(vec![true; slots]));
        }

        // A unit goes from the source to a ration, on to one of its open slots, and
        // from there to the sink: at once as long as the slot is below its low, else
        // through the common node, whose edge to the sink leaves the lows their part.
        let (source, sink, common) = (0, 1, 2);
        let ration_node = |i: usize| 3 + i;
        let slot_node = |t: usize| 3 + rations + t;
        let mut network = Network::new(3 + rations + slots);
        let owed: Vec<usize> = (0..rations)
            .map(|i| network.add_edge(source, ration_node(i), self.volume[i]))
            .collect();
        let cell: Vec<Vec<Option<usize>>> = (0..rations)
            .map(|i| {
                let mut add_cell = |t| network.add_edge(ration_node(i), slot_node(t), 1);
                (0..slots)
                    .map(|t| self.open[i][t].then(|| add_cell(t)))
                    .collect()
            })
            .collect();
        let must: Vec<usize> = (0..slots)
            .map(|t| network.add_edge(slot_node(t), sink, self.low[t]))
            .collect();
        let may: Vec<usize> = (0..slots)
            .map(|t| network.add_edge(slot_node(t), common, self.high[t] - self.low[t]))
            .collect();
        let rest = network.add_edge(common, sink, volume - lows);

        if let Some(known) = start {
            for i in 0..rations {
                for t in (0..slots).filter(|&t| known[i][t]) {
                    if let Some(fed) = cell[i][t] {
                        let _ = network.send_along(&[owed[i], fed, must[t]])
                            || network.send_along(&[owed[i], fed, may[t], rest]);
                    }
                }
            }
        }
        network.maximise(source, sink);

        if owed.iter().map(|&e| network.flow_on(e)).sum::<u32>() == volume {
            let fed = |edge: &Option<usize>| edge.is_some_and(|e| network.flow_on(e) == 1);
            return Ok(cell
                .iter()
                .map(|row| row.iter().map(fed).collect())
                .collect());
        }
        // The least cut shows the set, document 000, lemma 11.
        let reached = network.reached_from(source);
        let reached_slots = (0..slots).map(|t| reached[slot_node(t)]);
        Err(if reached[common] {
            Obstacle::Excess(reached_slots.map(|r| !r).collect())
        } else {
            Obstacle::Shortfall(reached_slots.collect())
        })
    }

    /// Settles one open cell: the ration is fed in the slot, or is not. What is left
    /// is a question about the other cells; none if there is no way to feed here.
    pub fn settled(&self, ration: usize, slot: usize, fed: bool) -> Option<Self> {
        let mut left = self.clone();
        left.open[ration][slot] = false;
        if fed {
            if left.volume[ration] == 0 || left.high[slot] == 0 {
                return None;
            }
            left.volume[ration] -= 1;
            left.high[slot] -= 1;
            left.low[slot] = left.low[slot].saturating_sub(1);
        }
        Some(left)
    }
}

/// The sum of the values of a set's slots.
fn sum_over(set: &[bool], values: &[u32]) -> u32 {
    let chosen = set.iter().zip(values).filter(|(&q, _)| q);
    chosen.map(|(_, v)| v).sum()
}

/// The highs of a day without further word: the sheet's blowers in each slot.
pub fn full_highs(sheet: &Sheet) -> Vec<u32> {
    vec![sheet.blowers; sheet.slots as usize]
}

/// The slots shown for a sheet without a sound placing: the set contained in every
/// set of greatest shortfall. None if there is a sound placing.
pub fn shown_set(sheet: &Sheet) -> Option<SlotSet> {
    shown_set_under(sheet, &full_highs(sheet))
}

/// The slots shown under these highs.
pub fn shown_set_under(sheet: &Sheet, highs: &[u32]) -> Option<SlotSet> {
    match Question::below(sheet, highs).solve(None) {
        Ok(_) => None,
        Err(Obstacle::Shortfall(set)) => Some(set),
        Err(other) => unreachable!("{other:?} where every low is 0"),
    }
}

/// The call for the shortfall of the marked slots: number, line and shortfall.
pub fn shortfall(bytes: &[u8], marks: &[u8]) -> (u32, u32, i32) {
    let sheet = match read(bytes) {
        Ok(sheet) => sheet,
        Err(Refusal { number, line }) => return (number, line, 0),
    };
    if marks.len() != sheet.slots as usize || marks.iter().any(|&mark| mark > 1) {
        return (11, 0, 0);
    }
    let set: SlotSet = marks.iter().map(|&mark| mark == 1).collect();
    (0, 0, Question::of_day(&sheet).shortfall(&set))
}

/// The bounds question: number, line and answer. A high above the blowers is read
/// as the blowers; a low is taken as it is.
pub fn bounds(bytes: &[u8], lows: &[u32], highs: &[u32]) -> (u32, u32, bool) {
    let sheet = match read(bytes) {
        Ok(sheet) => sheet,
        Err(Refusal { number, line }) => return (number, line, false),
    };
    let day = sheet.slots as usize;
    if lows.len() != day || highs.len() != day {
        return (11, 0, false);
    }
    let highs: Vec<u32> = highs.iter().map(|&high| high.min(sheet.blowers)).collect();
    let answer = Question::under(&sheet, lows, &highs).solve(None).is_ok();
    (0, 0, answer)
}
