//! The causes of stretches (request 105) from the definitions: small days settled by
//! enumerating all slot sets, and days of all sizes, of which each set is shown to be one of
//! greatest shortfall or excess and to lie in every other.

use reference::causes::{entries, Cause, Entry};
use reference::draws::Draws;
use reference::generate::{
    any_sheet, full_sheet, jagged_full_sheet, jagged_sheet, tight_sheet, Sizes, FULL, MIDDLE,
};
use reference::method::{self, State};
use reference::placing::{shown_set, Question};
use reference::sets::{of_greatest_excess, of_greatest_shortfall};
use reference::sheet::{Ration, Sheet};

/// All slot sets of a day, with what is forced into each and what is possible in it, by
/// document 01.
struct Sets {
    slots: usize,
    all: Vec<(Vec<bool>, i64, i64)>,
}

impl Sets {
    fn of(sheet: &Sheet) -> Self {
        let slots = sheet.slots as usize;
        let sets = (0..1_u32 << slots).map(|bits| {
            (0..slots)
                .map(|t| bits >> t & 1 == 1)
                .collect::<Vec<bool>>()
        });
        let counted = sets.map(|set| {
            let (mut forced, mut possible) = (0, 0);
            for r in &sheet.rations {
                let window = || (r.first..=r.last).map(|t| set[t as usize - 1]);
                let inside = window().filter(|&q| q).count() as i64;
                let outside = window().filter(|&q| !q).count() as i64;
                forced += 0.max(i64::from(r.volume) - outside);
                possible += inside.min(i64::from(r.volume));
            }
            (set, forced, possible)
        });
        Sets {
            slots,
            all: counted.collect(),
        }
    }

    /// Each set with its shortfall and its excess.
    fn valued<'a>(
        &'a self,
        low: &'a [u32],
        high: &'a [u32],
    ) -> impl Iterator<Item = (&'a Vec<bool>, i64, i64)> {
        self.all.iter().map(|(set, forced, possible)| {
            let sum = |values: &[u32]| -> i64 {
                let chosen = (0..set.len()).filter(|&t| set[t]);
                chosen.map(|t| i64::from(values[t])).sum()
            };
            (set, forced - sum(high), sum(low) - possible)
        })
    }

    /// Whether a sound placing exists under these bounds, by the condition of document 01.
    fn sound(&self, low: &[u32], high: &[u32]) -> bool {
        (0..self.slots).all(|t| low[t] <= high[t])
            && self
                .valued(low, high)
                .all(|(_, short, over)| short <= 0 && over <= 0)
    }

    /// The cause under these bounds, with its slots.
    fn cause(&self, low: &[u32], high: &[u32]) -> (Cause, Vec<u32>) {
        if let Some(t) = (0..self.slots).find(|&t| low[t] > high[t]) {
            return (Cause::LowAboveHigh, vec![t as u32 + 1]);
        }
        let shortfalls: Vec<_> = self.valued(low, high).map(|(q, s, _)| (q, s)).collect();
        if let Some(slots) = least_of_greatest(&shortfalls) {
            return (Cause::Shortfall, slots);
        }
        let excesses: Vec<_> = self.valued(low, high).map(|(q, _, e)| (q, e)).collect();
        let slots = least_of_greatest(&excesses);
        (Cause::Excess, slots.expect("one of the causes applies"))
    }
}

/// The slots of the set contained in every set of greatest value, none if no value is above
/// zero.
fn least_of_greatest(values: &[(&Vec<bool>, i64)]) -> Option<Vec<u32>> {
    let greatest = values.iter().map(|&(_, value)| value).max()?;
    if greatest <= 0 {
        return None;
    }
    let best = values.iter().filter(|&&(_, value)| value == greatest);
    let best: Vec<&Vec<bool>> = best.map(|&(set, _)| set).collect();
    let lies_in = |a: &[bool], b: &[bool]| a.iter().zip(b).all(|(&x, &y)| y || !x);
    let mut least = best
        .iter()
        .filter(|set| best.iter().all(|other| lies_in(set, other)));
    let set = least.next().expect("one of them lies in all");
    assert_eq!(least.next(), None);
    Some(
        (1..)
            .zip(*set)
            .filter(|(_, &q)| q)
            .map(|(t, _)| t)
            .collect(),
    )
}

/// The entries by the words of the papers: each run is the greatest length with a sound
/// placing, and the cause is that of one slot more. None if the sheet is held.
fn entries_by_definition(sheet: &Sheet) -> Option<Vec<Entry>> {
    let sets = Sets::of(sheet);
    let day = sheet.slots as usize;
    let (mut low, mut high) = (vec![0; day], vec![sheet.blowers; day]);
    if !sets.sound(&low, &high) {
        return None;
    }
    let mut entries = Vec::new();
    for blower in (1..=sheet.blowers).rev() {
        let mut t = 0;
        let mut busy = false;
        while t < day {
            let bounds = |length: usize| {
                let (mut low, mut high) = (low.clone(), high.clone());
                for u in t..t + length {
                    if busy {
                        low[u] = low[u].max(blower);
                    } else {
                        high[u] = blower - 1;
                    }
                }
                (low, high)
            };
            let is_sound = |&length: &usize| {
                let (low, high) = bounds(length);
                sets.sound(&low, &high)
            };
            let length = (0..=day - t).rfind(is_sound).expect("no slot is a run");
            assert!(length > 0 || (t == 0 && !busy));
            if t + length < day {
                let (low, high) = bounds(length + 1);
                let (cause, slots) = sets.cause(&low, &high);
                entries.push(Entry {
                    blower,
                    busy,
                    last: (t + length) as u32,
                    cause,
                    slots,
                });
            }
            (low, high) = bounds(length);
            t += length;
            busy = !busy;
        }
    }
    assert_eq!(low, high);
    Some(entries)
}

/// How often each cause was met, and what else shows that the days are of all kinds.
#[derive(Default)]
struct Met {
    idle_shortfall: u32,
    idle_low_above_high: u32,
    busy_excess: u32,
    days: u32,
    several_slots: u32,
    parted: u32,
}

impl Met {
    /// An idle stretch lowers highs alone, so it meets no excess; a busy one raises lows
    /// alone, so it meets no shortfall, and by no more than to the blower's own number,
    /// under which no higher blower has set a high.
    fn count(&mut self, entries: &[Entry]) {
        self.days += 1;
        for entry in entries {
            match (entry.busy, entry.cause) {
                (false, Cause::Shortfall) => self.idle_shortfall += 1,
                (false, Cause::LowAboveHigh) => self.idle_low_above_high += 1,
                (true, Cause::Excess) => self.busy_excess += 1,
                other => panic!("{other:?}"),
            }
            self.several_slots += u32::from(entry.slots.len() > 1);
            let parted = |pair: &[u32]| pair[0] + 1 < pair[1];
            self.parted += u32::from(entry.slots.windows(2).any(parted));
        }
    }

    fn check(&mut self, sheet: &Sheet) {
        let expected = entries_by_definition(sheet);
        assert_eq!(entries(sheet).ok(), expected, "{sheet:?}");
        if let Some(entries) = expected {
            self.count(&entries);
        }
    }

    fn least(&self) -> u32 {
        let causes = [
            self.idle_shortfall,
            self.idle_low_above_high,
            self.busy_excess,
        ];
        causes.into_iter().min().expect("three causes")
    }
}

const SMALL: Sizes = Sizes {
    slots: 7,
    blowers: 4,
    wake: 5,
    rations: 7,
};

#[test]
fn causes_of_small_days() {
    let mut draws = Draws::new(14);
    let mut met = Met::default();
    for round in 0..6_000 {
        met.check(&match round % 2 {
            0 => any_sheet(&mut draws, SMALL),
            _ => jagged_sheet(&mut draws, SMALL),
        });
    }
    assert!(met.days > 3_000, "{} planned", met.days);
    assert!(met.least() > 1_000, "{} of the rarest cause", met.least());
    assert!(met.several_slots > 1_000, "{}", met.several_slots);
    assert!(met.parted > 100, "{}", met.parted);
}

/// Every day of up to three slots, two blowers and three rations, each with its own tank.
#[test]
fn causes_of_all_tiny_days() {
    let mut met = Met::default();
    for slots in 1..=3 {
        let mut kinds = Vec::new();
        for first in 1..=slots {
            for last in first..=slots {
                kinds.extend((1..=last - first + 1).map(|volume| [first, last, volume]));
            }
        }
        let mut lists: Vec<Vec<[u32; 3]>> = vec![vec![]];
        for _ in 0..=3 {
            for list in &lists {
                let rations = list
                    .iter()
                    .zip(1..)
                    .map(|(&[first, last, volume], tank)| Ration {
                        tank,
                        first,
                        last,
                        volume,
                    });
                let rations: Vec<Ration> = rations.collect();
                for blowers in 1..=2 {
                    met.check(&Sheet {
                        slots,
                        blowers,
                        wake: 1,
                        rations: rations.clone(),
                    });
                }
            }
            let longer = |list: &Vec<[u32; 3]>| {
                let with = |&kind| [&list[..], &[kind]].concat();
                kinds.iter().map(with).collect::<Vec<_>>()
            };
            lists = lists.iter().flat_map(longer).collect();
        }
    }
    assert!(met.least() > 0);
}

/// The question of each entry in turn, the stretch being one slot longer: the stretches of
/// the plan are gone through again, and their bounds set slot by slot.
fn questions(sheet: &Sheet) -> Vec<Question> {
    let plan = method::plan(sheet).expect("planned");
    let mut bounds = Question::of_day(sheet);
    let mut questions = Vec::new();
    for blower in (1..=sheet.blowers).rev() {
        for stretch in plan.stretches.iter().filter(|s| s.blower == blower) {
            let busy = stretch.state == State::Busy;
            if busy && stretch.first == 1 {
                let mut longer = bounds.clone();
                longer.high[0] = blower - 1;
                questions.push(longer);
            }
            for slot in stretch.first..=(stretch.last + 1).min(sheet.slots) {
                let mut longer = bounds.clone();
                let t = slot as usize - 1;
                if busy {
                    longer.low[t] = longer.low[t].max(blower);
                } else {
                    longer.high[t] = blower - 1;
                }
                if slot <= stretch.last {
                    bounds = longer;
                } else {
                    questions.push(longer);
                }
            }
        }
    }
    questions
}

fn set_of(sheet: &Sheet, slots: &[u32]) -> Vec<bool> {
    (1..=sheet.slots).map(|t| slots.contains(&t)).collect()
}

/// Each set's value is above zero, and no set without one of its slots has as great a one:
/// a slot whose high is beyond reach, or whose low is 0, adds nothing to any set.
fn check_large(sheet: &Sheet) -> Vec<Entry> {
    let entries = entries(sheet).expect("planned");
    let questions = questions(sheet);
    assert_eq!(entries.len(), questions.len());
    for (entry, question) in entries.iter().zip(questions) {
        let set = set_of(sheet, &entry.slots);
        assert!(set[entry.last as usize], "the slot more has a part in it");
        assert!(question.solve(None).is_err());
        let day = || 0..sheet.slots as usize;
        let crossed = day().find(|&t| question.low[t] > question.high[t]);
        match entry.cause {
            Cause::LowAboveHigh => assert_eq!(crossed, Some(entry.last as usize)),
            Cause::Shortfall => {
                assert_eq!(crossed, None);
                let greatest = question.shortfall(&set);
                assert!(greatest > 0);
                for t in day().filter(|&t| set[t]) {
                    let mut other = question.clone();
                    other.high[t] = 1_000;
                    let best = of_greatest_shortfall(&other, None);
                    assert!(other.shortfall(&best) < greatest);
                }
            }
            Cause::Excess => {
                assert_eq!(crossed, None);
                let short = of_greatest_shortfall(&question, None);
                assert!(!short.contains(&true));
                let greatest = question.excess(&set);
                assert!(greatest > 0);
                for t in day().filter(|&t| set[t]) {
                    let mut other = question.clone();
                    other.low[t] = 0;
                    let best = of_greatest_excess(&other, None);
                    assert!(other.excess(&best) < greatest);
                }
            }
        }
    }
    entries
}

#[test]
fn causes_of_large_days() {
    let mut draws = Draws::new(15);
    let mut met = Met::default();
    for round in 0..60 {
        let sheet = match round % 5 {
            0 => tight_sheet(&mut draws, FULL),
            1 => jagged_sheet(&mut draws, FULL),
            2 => tight_sheet(&mut draws, MIDDLE),
            _ => jagged_sheet(&mut draws, MIDDLE),
        };
        met.count(&check_large(&sheet));
    }
    for _ in 0..3 {
        met.count(&check_large(&jagged_full_sheet(&mut draws)));
        let sheet = full_sheet(&mut draws);
        if shown_set(&sheet).is_none() {
            met.count(&check_large(&sheet));
        }
    }
    assert!(met.least() > 50, "{} of the rarest cause", met.least());
    assert!(met.parted > 50, "{}", met.parted);
}
