//! The feed sheet: lines of four numbers, checks 1 to 9 and 13, reading, writing and
//! the look-up by tank.

/// Columns of one field.
pub const FIELD: usize = 6;
/// Bytes in a line: four fields, then byte 10.
pub const LINE: usize = 4 * FIELD + 1;
/// No sheet that passes check 1 has more bytes than this; whole lines end before it.
pub const LONGEST_SHEET: usize = 65_520;
pub const MOST_SLOTS: u32 = 96;
pub const MOST_BLOWERS: u32 = 8;
pub const MOST_WAKE: u32 = 2_000;
pub const MOST_RATIONS: u32 = 64;
pub const MOST_TANK: u32 = 250_000;

/// One ration line: a meal of a tank, which may have several (request 102).
#[derive(Clone, Copy, Debug, PartialEq, Eq)]
pub struct Ration {
    pub tank: u32,
    pub first: u32,
    pub last: u32,
    pub volume: u32,
}

impl Ration {
    /// Whether slot `t` (counted from 1) lies in the window; both ends belong to it.
    pub fn window_holds(&self, t: u32) -> bool {
        self.first <= t && t <= self.last
    }
}

/// The values of an accepted sheet.
#[derive(Clone, Debug, PartialEq, Eq)]
pub struct Sheet {
    pub slots: u32,
    pub blowers: u32,
    pub wake: u32,
    pub rations: Vec<Ration>,
}

impl Sheet {
    /// The rations as a flat list, four numbers each.
    pub fn flat_rations(&self) -> Vec<u32> {
        self.rations
            .iter()
            .flat_map(|r| [r.tank, r.first, r.last, r.volume])
            .collect()
    }

    /// The text of the sheet, by the form alone and without any check.
    pub fn text(&self) -> Vec<u8> {
        let n = self.rations.len() as u32;
        let mut bytes = line_text([self.slots, self.blowers, self.wake, n]).to_vec();
        for r in &self.rations {
            bytes.extend(line_text([r.tank, r.first, r.last, r.volume]));
        }
        bytes
    }
}

/// Why a call is refused: the number of the check and the sheet line it names.
#[derive(Clone, Copy, Debug, PartialEq, Eq)]
pub struct Refusal {
    pub number: u32,
    pub line: u32,
}

fn refuse<T>(number: u32, line: u32) -> Result<T, Refusal> {
    Err(Refusal { number, line })
}

/// A number below 1,000,000 as a field: right-justified, blanks on its left.
pub fn field_text(value: u32) -> [u8; FIELD] {
    let text = format!("{value:>FIELD$}").into_bytes();
    text.try_into().expect("the number fits its field")
}

/// Four numbers, each below 1,000,000, as one line.
pub fn line_text(values: [u32; 4]) -> [u8; LINE] {
    let mut line = [b'\n'; LINE];
    for (field, value) in line.chunks_exact_mut(FIELD).zip(values) {
        field.copy_from_slice(&field_text(value));
    }
    line
}

/// The number that a field holds, or none if it is not in the stated form:
/// blanks, then at least one digit, and no leading zero but in `0` itself.
pub fn field_value(field: &[u8]) -> Option<u32> {
    let blanks = field.iter().take_while(|&&b| b == b' ').count();
    let digits = &field[blanks..];
    let all_digits = digits.iter().all(u8::is_ascii_digit);
    let leading_zero = digits.len() > 1 && digits[0] == b'0';
    if digits.is_empty() || !all_digits || leading_zero {
        return None;
    }
    Some(
        digits
            .iter()
            .fold(0, |value, d| value * 10 + u32::from(d - b'0')),
    )
}

/// The four numbers of a line, or none if a field is faulty or byte 10 is missing.
fn line_values(line: &[u8]) -> Option<[u32; 4]> {
    if line[LINE - 1] != b'\n' {
        return None;
    }
    let mut values = [0; 4];
    for (value, field) in values.iter_mut().zip(line.chunks(FIELD)) {
        *value = field_value(field)?;
    }
    Some(values)
}

/// Checks 3 to 9 and 13 on values. The n-th ration would stand on line n + 1.
fn check_values(
    slots: u32,
    blowers: u32,
    wake: u32,
    n: u32,
    flat_rations: &[u32],
) -> Result<Sheet, Refusal> {
    if !(1..=MOST_SLOTS).contains(&slots) {
        return refuse(3, 1);
    }
    if !(1..=MOST_BLOWERS).contains(&blowers) {
        return refuse(4, 1);
    }
    if wake > MOST_WAKE {
        return refuse(5, 1);
    }
    if n > MOST_RATIONS || flat_rations.len() != 4 * n as usize {
        return refuse(6, 1);
    }
    let mut rations: Vec<Ration> = Vec::new();
    for (record, line) in flat_rations.chunks(4).zip(2..) {
        let (tank, first, last, volume) = (record[0], record[1], record[2], record[3]);
        let before = rations.last();
        if !(1..=MOST_TANK).contains(&tank) || before.is_some_and(|b| tank < b.tank) {
            return refuse(7, line);
        }
        if !(1 <= first && first <= last && last <= slots) {
            return refuse(8, line);
        }
        if volume == 0 || volume > last - first + 1 {
            return refuse(9, line);
        }
        if before.is_some_and(|b| tank == b.tank && first <= b.last) {
            return refuse(13, line);
        }
        rations.push(Ration {
            tank,
            first,
            last,
            volume,
        });
    }
    Ok(Sheet {
        slots,
        blowers,
        wake,
        rations,
    })
}

/// Reads a sheet: checks 1 to 9 and 13 in their order, 7, 8, 9 and 13 line by line.
pub fn read(bytes: &[u8]) -> Result<Sheet, Refusal> {
    if bytes.len() < LINE || bytes.len() > LONGEST_SHEET || !bytes.len().is_multiple_of(LINE) {
        return refuse(1, 0);
    }
    let mut lines = Vec::new();
    for (line, number) in bytes.chunks(LINE).zip(1..) {
        match line_values(line) {
            Some(values) => lines.push(values),
            None => return refuse(2, number),
        }
    }
    let [slots, blowers, wake, n] = lines[0];
    check_values(slots, blowers, wake, n, &lines[1..].concat())
}

/// Writes a sheet into the lent buffer: checks 3 to 9 and 13 on the values, then 10.
/// Gives number, line and length. A refusal changes no byte, and bytes after the
/// sheet keep their values.
pub fn write(
    slots: u32,
    blowers: u32,
    wake: u32,
    n: u32,
    flat_rations: &[u32],
    buffer: &mut [u8],
) -> (u32, u32, usize) {
    match check_values(slots, blowers, wake, n, flat_rations) {
        Err(refusal) => (refusal.number, refusal.line, 0),
        Ok(_) if buffer.len() < LINE * (n as usize + 1) => (10, 0, 0),
        Ok(sheet) => {
            let text = sheet.text();
            buffer[..text.len()].copy_from_slice(&text);
            (0, 0, text.len())
        }
    }
}

/// All lines of the tank as one part of the sheet, closing bytes 10 included; empty if
/// the sheet is refused by checks 1 to 9 or 13, or lacks the tank. The lines stand
/// together, since no tank is below the one before it.
pub fn find(bytes: &[u8], tank: u32) -> &[u8] {
    let Ok(sheet) = read(bytes) else {
        return &[];
    };
    let is_meal = |r: &Ration| r.tank == tank;
    let Some(first) = sheet.rations.iter().position(is_meal) else {
        return &[];
    };
    let meals = sheet.rations[first..].iter().filter(|r| is_meal(r)).count();
    &bytes[LINE * (first + 1)..LINE * (first + 1 + meals)]
}
