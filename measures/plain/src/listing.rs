//! States, starts, energy and the bill, the bytes of the listings, and the planning calls.

use crate::method::{plan_day, Day, Held};
use crate::sheet::{read, Sheet, FIELD, LINE};
use crate::{Planned, BLOWERS, RATIONS, SLOTS};

const WORD: usize = 5;
pub const PLAN_BYTES: usize = WORD + LINE * (2 + 2 * BLOWERS * SLOTS);
pub const PLACING_WORDS: usize = SLOTS;

/// Tenths of a cent per energy unit, for each hour of the day.
const RATES: [u32; 24] = [
    18, 18, 18, 18, 18, 18, 31, 31, 31, 24, 24, 24, 24, 24, 24, 24, 24, 36, 36, 36, 36, 22, 22, 22,
];

/// The rate of a slot, counted from 1.
fn rate(slot: u32) -> u32 {
    RATES[(slot as usize - 1) / 4]
}

/// Lines written one after another into a buffer.
struct Lines<'a> {
    out: &'a mut [u8],
    at: usize,
}

fn put_field(field: &mut [u8], value: u32) {
    let mut rest = value;
    let mut digits = field.iter_mut().rev();
    if let Some(last) = digits.next() {
        *last = b'0' + (rest % 10) as u8;
        rest /= 10;
    }
    for column in digits {
        *column = if rest == 0 {
            b' '
        } else {
            b'0' + (rest % 10) as u8
        };
        rest /= 10;
    }
}

fn put_line(line: &mut [u8], values: [u32; 4]) {
    for (field, value) in line.chunks_exact_mut(FIELD).zip(values) {
        put_field(field, value);
    }
    line[LINE - 1] = b'\n';
}

impl Lines<'_> {
    fn put(&mut self, values: [u32; 4]) {
        put_line(&mut self.out[self.at..self.at + LINE], values);
        self.at += LINE;
    }
}

fn put_plan(sheet: &Sheet, day: &Day, out: &mut [u8]) -> usize {
    out[..WORD].copy_from_slice(b"PLAN\n");
    let at = WORD + LINE;
    let mut lines = Lines { out, at };
    let (mut on, mut starts, mut stretches, mut charge) = (0, 0, 0, 0);
    let counts = &day.counts[..sheet.slots];
    for blower in 1..=sheet.blowers {
        let (mut first, mut before) = (1, 0);
        for run in counts.chunk_by(|a, b| (*a >= blower) == (*b >= blower)) {
            let length = run.len() as u32;
            let last = first + length - 1;
            let at_end = first == 1 || last as usize == sheet.slots;
            let state = match run[0] >= blower {
                true => 2,
                false if at_end || length >= sheet.wake => 0,
                false => 1,
            };
            lines.put([u32::from(blower), first, last, state]);
            stretches += 1;
            if state != 0 {
                on += length;
                charge += (first..=last).map(rate).sum::<u32>();
                if before == 0 {
                    starts += 1;
                    charge += sheet.wake * rate(first);
                }
            }
            before = state;
            first += length;
        }
    }
    let mut parts = [0; RATIONS];
    let mut feedings = 0;
    for (t, &word) in day.fed[..sheet.slots].iter().enumerate() {
        let mut rest = word;
        let mut blower = 0;
        while rest != 0 {
            let j = rest.trailing_zeros() as usize;
            rest &= rest - 1;
            blower += 1;
            parts[j] += 1;
            lines.put([t as u32 + 1, blower, sheet.list[j].tank, parts[j]]);
        }
        feedings += blower;
    }
    let cents = (charge + 5) / 10;
    lines.put([cents / 100, cents % 100, 0, 0]);
    let end = lines.at;
    let energy = on + sheet.wake * starts;
    put_line(&mut out[WORD..at], [energy, starts, stretches, feedings]);
    end
}

fn put_held(sheet: &Sheet, held: &Held, out: &mut [u8]) -> usize {
    out[..WORD].copy_from_slice(b"HELD\n");
    let at = WORD + LINE;
    let mut lines = Lines { out, at };
    let marks = &held.marks[..sheet.slots];
    for (t, _) in marks.iter().enumerate().filter(|(_, &mark)| mark != 0) {
        lines.put([t as u32 + 1, 0, 0, 0]);
    }
    let end = lines.at;
    let shown = ((end - at) / LINE) as u32;
    let capacity = shown * u32::from(sheet.blowers);
    put_line(&mut out[WORD..at], [12, shown, held.forced, capacity]);
    end
}

/// The rations of each slot, none past the end of the day or where it is held.
fn put_placing(day: &Result<Day, Held>, out: &mut [u64]) {
    let out = &mut out[..PLACING_WORDS];
    match day {
        Ok(day) => out.copy_from_slice(&day.fed),
        Err(_) => out.fill(0),
    }
}

fn plan_into(bytes: &[u8], listing: &mut [u8], placing: Option<&mut [u64]>) -> Planned {
    let refused = |number, line| Planned {
        number,
        line,
        length: 0,
    };
    let sheet = match read(bytes) {
        Ok(sheet) => sheet,
        Err((number, line)) => return refused(number, line),
    };
    if listing.len() < PLAN_BYTES || placing.as_ref().is_some_and(|p| p.len() < PLACING_WORDS) {
        return refused(10, 0);
    }
    let day = plan_day(&sheet);
    if let Some(placing) = placing {
        put_placing(&day, placing);
    }
    let (number, length) = match &day {
        Ok(day) => (0, put_plan(&sheet, day, listing)),
        Err(held) => (12, put_held(&sheet, held, listing)),
    };
    Planned {
        number,
        line: 0,
        length,
    }
}

/// Plans a sheet into a plan buffer.
pub fn plan(bytes: &[u8], listing: &mut [u8]) -> Planned {
    plan_into(bytes, listing, None)
}

/// Plans a sheet into a plan buffer and a placing buffer.
pub fn plan_both(bytes: &[u8], listing: &mut [u8], placing: &mut [u64]) -> Planned {
    plan_into(bytes, listing, Some(placing))
}
