//! Reading a sheet: checks 1 to 9 and 13.

use crate::RATIONS;

pub const FIELD: usize = 6;
pub const LINE: usize = 4 * FIELD + 1;
const MOST_WAKE: u32 = 2_000;
const MOST_TANK: u32 = 250_000;

#[derive(Clone, Copy, Default)]
pub struct Ration {
    pub tank: u32,
    pub first: u32,
    pub last: u32,
    pub volume: u32,
}

pub struct Sheet {
    pub slots: usize,
    pub blowers: u8,
    pub wake: u32,
    pub rations: usize,
    pub list: [Ration; RATIONS],
}

impl Sheet {
    pub fn rations(&self) -> &[Ration] {
        &self.list[..self.rations]
    }
}

/// A refusal's number and line.
pub type Refusal = (u32, u32);

fn field(bytes: &[u8]) -> Option<u32> {
    let blanks = bytes.iter().take_while(|&&b| b == b' ').count();
    let digits = &bytes[blanks..];
    if digits.is_empty() || (digits.len() > 1 && digits[0] == b'0') {
        return None;
    }
    digits.iter().try_fold(0, |value, &b| {
        b.is_ascii_digit().then(|| value * 10 + u32::from(b - b'0'))
    })
}

fn line(bytes: &[u8]) -> Option<[u32; 4]> {
    let mut values = [0; 4];
    for (value, at) in values.iter_mut().zip((0..).step_by(FIELD)) {
        *value = field(&bytes[at..at + FIELD])?;
    }
    (bytes[LINE - 1] == b'\n').then_some(values)
}

pub fn read(bytes: &[u8]) -> Result<Sheet, Refusal> {
    if bytes.len() < LINE || bytes.len() > 65_520 || !bytes.len().is_multiple_of(LINE) {
        return Err((1, 0));
    }
    let lines = bytes.chunks_exact(LINE);
    if let Some(at) = lines.clone().position(|l| line(l).is_none()) {
        return Err((2, at as u32 + 1));
    }
    let mut values = lines.map(|l| line(l).unwrap_or_default());
    let [slots, blowers, wake, n] = values.next().unwrap_or_default();
    if !(1..=96).contains(&slots) {
        return Err((3, 1));
    }
    if !(1..=8).contains(&blowers) {
        return Err((4, 1));
    }
    if wake > MOST_WAKE {
        return Err((5, 1));
    }
    if n > 64 || n as usize != values.len() {
        return Err((6, 1));
    }
    let mut list = [Ration::default(); RATIONS];
    // Before the first ration: a tank below every other, and no slot.
    let mut before = Ration::default();
    for (i, [tank, first, last, volume]) in values.enumerate() {
        let line = i as u32 + 2;
        if tank < 1 || tank < before.tank || tank > MOST_TANK {
            return Err((7, line));
        }
        if first < 1 || last < first || slots < last {
            return Err((8, line));
        }
        if volume == 0 || volume > last - first + 1 {
            return Err((9, line));
        }
        if tank == before.tank && first <= before.last {
            return Err((13, line));
        }
        before = Ration {
            tank,
            first,
            last,
            volume,
        };
        list[i] = before;
    }
    Ok(Sheet {
        slots: slots as usize,
        blowers: blowers as u8,
        wake,
        rations: n as usize,
        list,
    })
}
