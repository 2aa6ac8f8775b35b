//! The listing of a plan and of a held sheet, the program's output and the planning
//! call.

use crate::bill;
use crate::method::{self, Plan};
use crate::placing::{full_highs, Question, SlotSet};
use crate::sheet::{line_text, read, Refusal, Sheet, LINE, MOST_BLOWERS, MOST_SLOTS};

/// The least plan buffer, 38,455 bytes: `PLAN` and byte 10, the head line, for each blower
/// and slot one stretch line and one feed line, and the line of the bill (request 103).
pub const PLAN_BUFFER: usize = 5 + LINE * (2 + 2 * (MOST_BLOWERS * MOST_SLOTS) as usize);
/// The least placing buffer: a word for each of 96 slots, with a bit for each of 64
/// rations.
pub const PLACING_WORDS: usize = MOST_SLOTS as usize;

/// The listing of a plan. Its head line counts the stretch lines and the feed lines; the
/// bill comes after them.
pub fn plan_text(plan: &Plan) -> Vec<u8> {
    let mut text = b"PLAN\n".to_vec();
    let (stretches, feedings) = (plan.stretches.len() as u32, plan.feedings.len() as u32);
    text.extend(line_text([plan.energy, plan.starts, stretches, feedings]));
    for s in &plan.stretches {
        text.extend(line_text([s.blower, s.first, s.last, s.state as u32]));
    }
    for f in &plan.feedings {
        text.extend(line_text([f.slot, f.blower, f.tank, f.part]));
    }
    let cents = bill::cents(plan.charge);
    text.extend(line_text([cents / 100, cents % 100, 0, 0]));
    text
}

/// The words of a plan's placing (request 106): slot t is in word t − 1, ration i in bit
/// i − 1, and every other bit is 0.
pub fn placing_words(plan: &Plan) -> [u64; PLACING_WORDS] {
    let mut words = [0; PLACING_WORDS];
    for (i, row) in plan.placing.iter().enumerate() {
        for (word, &fed) in words.iter_mut().zip(row) {
            *word |= u64::from(fed) << i;
        }
    }
    words
}

/// The listing of a sheet that is held for want of blowers, with the slots shown.
pub fn held_text(sheet: &Sheet, shown: &SlotSet) -> Vec<u8> {
    held_text_under(sheet, &full_highs(sheet), shown)
}

/// The same under these highs, whose sum over the slots shown is the capacity.
pub fn held_text_under(sheet: &Sheet, highs: &[u32], shown: &SlotSet) -> Vec<u8> {
    let slots: Vec<u32> = (1..=sheet.slots)
        .filter(|&t| shown[t as usize - 1])
        .collect();
    let size = slots.len() as u32;
    let day = Question::below(sheet, highs);
    let mut text = b"HELD\n".to_vec();
    text.extend(line_text([
        12,
        size,
        day.forced(shown),
        day.capacity(shown),
    ]));
    for slot in slots {
        text.extend(line_text([slot, 0, 0, 0]));
    }
    text
}

/// The listing for every number but 0 and 12.
pub fn refusal_text(refusal: Refusal) -> Vec<u8> {
    let mut text = b"HELD\n".to_vec();
    text.extend(line_text([refusal.number, refusal.line, 0, 0]));
    text
}

/// The program's whole output for the bytes of its standard input.
pub fn program(bytes: &[u8]) -> Vec<u8> {
    match read(bytes) {
        Err(refusal) => refusal_text(refusal),
        Ok(sheet) => match method::plan(&sheet) {
            Ok(plan) => plan_text(&plan),
            Err(shown) => held_text(&sheet, &shown),
        },
    }
}

/// The planning call: number, line and length. Checks 1 to 9 and 13, 10 for each buffer
/// that is lent, then 12. Without a plan buffer the length is 0. Numbers 0 and 12
/// settle the first 96 words of a lent placing buffer, for 12 all to 0. Bytes and words
/// after what is written keep their values.
pub fn plan(
    bytes: &[u8],
    plan_buffer: Option<&mut [u8]>,
    placing_buffer: Option<&mut [u64]>,
) -> (u32, u32, usize) {
    let sheet = match read(bytes) {
        Ok(sheet) => sheet,
        Err(Refusal { number, line }) => return (number, line, 0),
    };
    let short_plan = plan_buffer.as_ref().is_some_and(|b| b.len() < PLAN_BUFFER);
    let short_placing = placing_buffer
        .as_ref()
        .is_some_and(|b| b.len() < PLACING_WORDS);
    if short_plan || short_placing {
        return (10, 0, 0);
    }
    let outcome = method::plan(&sheet);
    if let Some(buffer) = placing_buffer {
        let words = outcome.as_ref().map_or([0; PLACING_WORDS], placing_words);
        buffer[..PLACING_WORDS].copy_from_slice(&words);
    }
    let (number, text) = match &outcome {
        Ok(plan) => (0, plan_text(plan)),
        Err(shown) => (12, held_text(&sheet, shown)),
    };
    match plan_buffer {
        Some(buffer) => {
            buffer[..text.len()].copy_from_slice(&text);
            (number, 0, text.len())
        }
        None => (number, 0, 0),
    }
}
