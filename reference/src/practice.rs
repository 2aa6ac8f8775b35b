//! Practice sheets (request 107): the sheet of a seed, the call `practice` and the output of
//! the program that writes such a sheet.

use crate::draws::Draws;
use crate::listing::refusal_text;
use crate::sheet::{field_value, Ration, Refusal, Sheet, FIELD};

/// The slots of every practice sheet.
const SLOTS: u32 = 96;
/// How many numbers of blowers, wake costs and numbers of rations the draws choose from.
/// They are the request's own, and stay where a limit of the sheet changes: request 110 lets
/// a sheet have greater wake costs, and a practice sheet has none above 200.
const BLOWERS: u32 = 8;
const WAKES: u32 = 201;
const RATIONS: u32 = 65;

/// The last seed that the program takes; the call takes any of 32 bits.
pub const LAST_SEED: u32 = 99_999;

/// The sheet of a seed. Each number that is drawn is drawn where it stands here, so that the
/// order of the lines below is that of the draws.
pub fn practice_sheet(seed: u32) -> Sheet {
    let draws = &mut Draws::new(seed);
    let blowers = 1 + draws.below(BLOWERS);
    let wake = draws.below(WAKES);
    let n = draws.below(RATIONS);
    let mut rations = Vec::new();
    for tank in 1..=n {
        let first = 1 + draws.below(SLOTS);
        let last = first + draws.below(SLOTS + 1 - first);
        let volume = 1 + draws.below(last - first + 1);
        rations.push(Ration {
            tank,
            first,
            last,
            volume,
        });
    }
    Sheet {
        slots: SLOTS,
        blowers,
        wake,
        rations,
    }
}

/// The call for a practice sheet: number, line and length. A buffer under 25 × (n + 1) bytes
/// is refused and keeps its bytes, as do those after the sheet in a longer one.
pub fn practice(seed: u32, buffer: &mut [u8]) -> (u32, u32, usize) {
    let text = practice_sheet(seed).text();
    if buffer.len() < text.len() {
        return (10, 0, 0);
    }
    buffer[..text.len()].copy_from_slice(&text);
    (0, 0, text.len())
}

/// The seed of an input: one field, closed by byte 10, and nothing else. A field holds
/// numbers above the last seed too, and these are no seeds.
fn seed_of(input: &[u8]) -> Option<u32> {
    let (&closing, field) = input.split_last()?;
    if field.len() != FIELD || closing != b'\n' {
        return None;
    }
    field_value(field).filter(|&seed| seed <= LAST_SEED)
}

/// The program's whole output for the bytes of its standard input.
pub fn program(input: &[u8]) -> Vec<u8> {
    match seed_of(input) {
        Some(seed) => practice_sheet(seed).text(),
        None => refusal_text(Refusal { number: 2, line: 1 }),
    }
}
