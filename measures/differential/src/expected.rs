//! What document 01 asks of every call on a day, from the reference implementation.

use crate::values::Values;
use reference::causes::{self, CAUSES_BUFFER};
use reference::comparison::{fed_tanks, order_of_plans, Order, Tanks};
use reference::listing::{held_text, plan_text, PLACING_WORDS, PLAN_BUFFER};
use reference::sheet::{read, write, Refusal, Sheet, LINE};
use reference::{method, placing};

/// A day with all that planning it gives. The reference plans it once.
pub struct Expected {
    /// The sheet, where the day is lent as one or can be written as one.
    pub bytes: Vec<u8>,
    pub sheet: Result<Sheet, Refusal>,
    /// Number 0 or 12 of a well-formed sheet.
    pub number: u32,
    /// That of the plan or of the held sheet.
    pub listing: Vec<u8>,
    /// A word for each slot, bit i for ration i, rations counted from 0.
    pub placing: Vec<u64>,
    /// Each slot's count, of a planned sheet.
    pub counts: Option<Vec<u32>>,
    /// Each slot's list of fed tanks, of a planned sheet.
    pub tanks: Option<Tanks>,
}

impl Expected {
    /// Of a day that is lent as a sheet.
    pub fn of(bytes: Vec<u8>) -> Self {
        let sheet = read(&bytes);
        Expected::planned(bytes, sheet)
    }

    /// Of a day that is lent as records: that of the sheet that they make, or the refusal of
    /// writing it.
    pub fn of_records(values: &Values) -> Self {
        let ([slots, blowers, wake, _], flat) = (values.head, values.whole());
        let n = flat.len() / 4;
        let mut bytes = vec![0; LINE * (n + 1)];
        match write(slots, blowers, wake, n as u32, flat, &mut bytes) {
            (0, _, _) => Expected::of(bytes),
            (number, line, _) => Expected::planned(Vec::new(), Err(Refusal { number, line })),
        }
    }

    fn planned(bytes: Vec<u8>, sheet: Result<Sheet, Refusal>) -> Self {
        let mut expected = Expected {
            bytes,
            sheet,
            number: 0,
            listing: Vec::new(),
            placing: vec![0; PLACING_WORDS],
            counts: None,
            tanks: None,
        };
        let Ok(sheet) = &expected.sheet else {
            return expected;
        };
        match method::plan(sheet) {
            Ok(plan) => {
                expected.listing = plan_text(&plan);
                for (i, row) in plan.placing.iter().enumerate() {
                    for (word, &fed) in expected.placing.iter_mut().zip(row) {
                        *word |= u64::from(fed) << i;
                    }
                }
                expected.tanks = Some(fed_tanks(&plan));
                expected.counts = Some(plan.counts);
            }
            Err(shown) => {
                expected.number = 12;
                expected.listing = held_text(sheet, &shown);
            }
        }
        expected
    }

    /// The number and line of planning, lent buffers of so many bytes and so many words.
    pub fn planning(&self, listing: Option<usize>, placing: Option<usize>) -> (u32, u32) {
        if let Err(refusal) = &self.sheet {
            return (refusal.number, refusal.line);
        }
        let short = |size: Option<usize>, least: usize| size.is_some_and(|size| size < least);
        if short(listing, PLAN_BUFFER) || short(placing, PLACING_WORDS) {
            return (10, 0);
        }
        (self.number, 0)
    }

    /// The number and line of listing causes, lent a buffer of this size.
    pub fn listing_causes(&self, size: usize) -> (u32, u32) {
        match self.planning(None, None) {
            (0 | 12, _) if size < CAUSES_BUFFER => (10, 0),
            refusal => refusal,
        }
    }

    /// The listing of the causes of a planned sheet, and whether it was cut.
    pub fn causes(&self) -> (Vec<u8>, bool) {
        match &self.sheet {
            Ok(sheet) if self.number == 0 => {
                let entries = causes::entries(sheet).expect("the sheet is planned");
                causes::listing(&entries)
            }
            _ => (Vec::new(), false),
        }
    }

    /// The number that the run counts the sheet under.
    pub fn outcome(&self) -> u32 {
        self.planning(None, None).0
    }

    /// Whether the sheet has as many slots, blowers and rations as can be.
    pub fn is_full(&self) -> bool {
        let full = |s: &Sheet| (s.slots, s.blowers, s.rations.len()) == (96, 8, 64);
        self.sheet.as_ref().is_ok_and(full)
    }

    /// Number, line and order of a comparison with another sheet.
    pub fn compared(&self, other: &Expected) -> (u32, u32, u32) {
        for (number, line) in [self, other].map(|e| e.planning(None, None)) {
            if number != 0 {
                return (number, line, Order::No as u32);
            }
        }
        let [one, other] = [self, other].map(|e| e.tanks.as_ref().expect("a planned sheet"));
        (0, 0, order_of_plans(one, other) as u32)
    }

    /// Number, line and shortfall of the marked slots.
    pub fn shortfall(&self, marks: &[u8]) -> (u32, u32, i32) {
        match &self.sheet {
            Ok(_) => placing::shortfall(&self.bytes, marks),
            Err(refusal) => (refusal.number, refusal.line, 0),
        }
    }

    /// Number, line and answer of the question under bounds.
    pub fn bounds(&self, lows: &[u32], highs: &[u32]) -> (u32, u32, bool) {
        match &self.sheet {
            Ok(_) => placing::bounds(&self.bytes, lows, highs),
            Err(refusal) => (refusal.number, refusal.line, false),
        }
    }
}
