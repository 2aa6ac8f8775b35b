//! Placings in words with the load of each slot from its low to its high, and the
//! calls `shortfall` and `bounds`.

use crate::search::{has_room, push};
use crate::sheet::{read, Ration, Refusal, Sheet};
use crate::{Bytes, Words, SLOTS};

/// A sound placing under bounds: a slot's low is its rations less `spare`.
pub struct Placing {
    pub fed: Words,
    pub rest: Words,
    pub high: Bytes,
    pub spare: Bytes,
    pub seen: Bytes,
}

fn unload(fed: &mut Words, rest: &mut Words, high: &Bytes, seen: &mut Bytes, t: usize) -> bool {
    let marks = *seen;
    while fed[t].count_ones() > u32::from(high[t]) {
        if seen[t] != 0 || !push(fed, rest, high, seen, t) {
            return false;
        }
        *seen = marks;
    }
    true
}

fn lower(
    fed: &mut Words,
    rest: &mut Words,
    high: &mut Bytes,
    seen: &mut Bytes,
    t: usize,
    h: u8,
) -> bool {
    let old = std::mem::replace(&mut high[t], h);
    seen.fill(0);
    let done = unload(fed, rest, high, seen, t);
    if !done {
        high[t] = old;
    }
    done
}

impl Placing {
    /// A placing within the highs, and yes; or no, and one whose marks show why.
    pub fn begin(sheet: &Sheet, high: &Bytes) -> (Self, bool) {
        let mut placing = Placing {
            fed: [0; SLOTS],
            rest: [0; SLOTS],
            high: *high,
            spare: [0; SLOTS],
            seen: [0; SLOTS],
        };
        for (j, ration) in sheet.rations().iter().enumerate() {
            for t in ration.first as usize - 1..ration.last as usize {
                placing.rest[t] |= 1 << j;
            }
        }
        for (j, ration) in sheet.rations().iter().enumerate() {
            let left = placing.feed_pass(j, ration.volume, high);
            placing.feed_pass(j, left, &[65; SLOTS]);
        }
        let mut within = true;
        for t in 0..SLOTS {
            within &= unload(
                &mut placing.fed,
                &mut placing.rest,
                high,
                &mut placing.seen,
                t,
            );
        }
        for t in 0..SLOTS {
            placing.spare[t] = placing.width(t) as u8;
        }
        (placing, within)
    }

    fn feed_pass(&mut self, j: usize, volume: u32, high: &Bytes) -> u32 {
        let ration = 1 << j;
        let mut left = volume;
        for (t, &most) in high.iter().enumerate() {
            if left == 0 {
                break;
            }
            if self.rest[t] & ration != 0 && has_room(self.fed[t], most) {
                self.fed[t] |= ration;
                self.rest[t] ^= ration;
                left -= 1;
            }
        }
        left
    }

    fn width(&self, t: usize) -> u32 {
        self.fed[t].count_ones() + self.rest[t].count_ones()
    }

    fn has_low(&self, t: usize, k: u8) -> bool {
        u32::from(self.spare[t]) + u32::from(k) <= self.width(t)
    }

    /// Whether slot t can hold at most k − 1 feedings; that is its high then.
    pub fn idle(&mut self, t: usize, k: u8) -> bool {
        if self.has_low(t, k) {
            return false;
        }
        self.high[t] < k
            || lower(
                &mut self.fed,
                &mut self.rest,
                &mut self.high,
                &mut self.seen,
                t,
                k - 1,
            )
    }

    /// Whether slot t can hold at least k feedings; that is its low then.
    pub fn busy(&mut self, t: usize, k: u8) -> bool {
        if self.high[t] < k {
            return false;
        }
        if self.has_low(t, k) {
            return true;
        }
        let width = self.width(t);
        width >= u32::from(k)
            && lower(
                &mut self.rest,
                &mut self.fed,
                &mut self.spare,
                &mut self.seen,
                t,
                (width - u32::from(k)) as u8,
            )
    }
}

/// The blowers in every slot of the day, 0 past its end.
pub fn full_highs(sheet: &Sheet) -> Bytes {
    let mut high = [0; SLOTS];
    high[..sheet.slots].fill(sheet.blowers);
    high
}

/// What `shortfall` answers: number, line, shortfall.
type Answer = (u32, u32, i32);

/// The sheet, where neither it nor the marks are refused.
fn accepted(bytes: &[u8], marks: &[u8]) -> Result<Sheet, Refusal> {
    let sheet = read(bytes)?;
    if marks.len() != sheet.slots || marks.iter().any(|&m| m > 1) {
        return Err((11, 0));
    }
    Ok(sheet)
}

/// Forced less capacity, where `unmarked` has how many slots of a window are not marked.
fn difference(sheet: &Sheet, marked: u32, unmarked: impl Fn(&Ration) -> u32) -> i32 {
    let rations = sheet.rations().iter();
    let forced: u32 = rations.map(|r| r.volume.saturating_sub(unmarked(r))).sum();
    forced as i32 - (marked * u32::from(sheet.blowers)) as i32
}

/// The shortfall of the marked slots, a window's marks being the difference of two counts.
pub fn shortfall(bytes: &[u8], marks: &[u8]) -> Answer {
    let sheet = match accepted(bytes, marks) {
        Ok(sheet) => sheet,
        Err((number, line)) => return (number, line, 0),
    };
    let mut before = [0; SLOTS + 1];
    let mut marked = 0;
    for (&mark, count) in marks.iter().zip(&mut before[1..]) {
        marked += u32::from(mark == 1);
        *count = marked;
    }
    let unmarked = |r: &Ration| {
        let (first, last) = (r.first as usize, r.last as usize);
        r.last + 1 - r.first - (before[last] - before[first - 1])
    };
    (0, 0, difference(&sheet, marked, unmarked))
}

/// The same, with a look at every slot of every window.
pub fn shortfall_by_slot(bytes: &[u8], marks: &[u8]) -> Answer {
    let sheet = match accepted(bytes, marks) {
        Ok(sheet) => sheet,
        Err((number, line)) => return (number, line, 0),
    };
    let marked = marks.iter().filter(|&&m| m == 1).count() as u32;
    let unmarked = |r: &Ration| {
        let window = &marks[r.first as usize - 1..r.last as usize];
        window.iter().filter(|&&m| m != 1).count() as u32
    };
    (0, 0, difference(&sheet, marked, unmarked))
}

/// The bounds question: number, line, answer.
pub fn bounds(bytes: &[u8], lows: &[u32], highs: &[u32]) -> (u32, u32, bool) {
    let sheet = match read(bytes) {
        Ok(sheet) => sheet,
        Err((number, line)) => return (number, line, false),
    };
    if lows.len() != sheet.slots || highs.len() != sheet.slots {
        return (11, 0, false);
    }
    let mut high = [0; SLOTS];
    for (h, &given) in high.iter_mut().zip(highs) {
        *h = given.min(u32::from(sheet.blowers)) as u8;
    }
    if lows.iter().zip(&high).any(|(&l, &h)| l > u32::from(h)) {
        return (0, 0, false);
    }
    let (mut placing, within) = Placing::begin(&sheet, &high);
    let mut each = lows.iter().enumerate();
    let yes = within && each.all(|(t, &low)| placing.busy(t, low as u8));
    (0, 0, yes)
}
