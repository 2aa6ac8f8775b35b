//! The implementations that plan, and the call that lists causes, as calls of one shape.

use reference::causes::CAUSES_BUFFER;
use reference::listing::PLACING_WORDS;
use sheets::{Kind, Sizes, FULL};
use std::hint::black_box;

/// Plans a sheet into a plan buffer, or lists its causes; gives number, line and length.
pub type Engine = fn(&[u8], &mut [u8]) -> (u32, u32, usize);

pub fn library(sheet: &[u8], listing: &mut [u8]) -> (u32, u32, usize) {
    let answer = library::plan(sheet, listing);
    (answer.number, answer.line, answer.length)
}

/// Plans into a placing buffer of its own alone, whatever buffer it is given.
pub fn placing(sheet: &[u8], _: &mut [u8]) -> (u32, u32, usize) {
    let answer = library::plan_placing(sheet, &mut [0; PLACING_WORDS]);
    (answer.number, answer.line, answer.length)
}

/// Plans into a plan buffer, and into a placing buffer of its own.
pub fn both(sheet: &[u8], listing: &mut [u8]) -> (u32, u32, usize) {
    let answer = library::plan_both(sheet, listing, &mut [0; PLACING_WORDS]);
    (answer.number, answer.line, answer.length)
}

/// The same with rations cut.
pub fn share(sheet: &[u8], listing: &mut [u8]) -> (u32, u32, usize) {
    let answer = library::plan_share(sheet, listing, &mut [0; PLACING_WORDS]);
    (answer.number, answer.line, answer.length)
}

/// Under a name that a counter of instructions finds.
#[no_mangle]
#[inline(never)]
pub fn plain_plan(sheet: &[u8], listing: &mut [u8]) -> (u32, u32, usize) {
    let answer = plain::plan(sheet, listing);
    (answer.number, answer.line, answer.length)
}

pub fn reference(sheet: &[u8], listing: &mut [u8]) -> (u32, u32, usize) {
    reference::listing::plan(sheet, Some(listing), None)
}

/// Lists causes, into a buffer for these.
pub fn causes(sheet: &[u8], out: &mut [u8]) -> (u32, u32, usize) {
    let answer = library::causes(sheet, out);
    (answer.number, answer.line, answer.length)
}

pub fn reference_causes(sheet: &[u8], out: &mut [u8]) -> (u32, u32, usize) {
    let (number, line, length, _) = reference::causes::causes(sheet, out);
    (number, line, length)
}

pub fn named(name: &str) -> Option<Engine> {
    match name {
        "library" => Some(library),
        "plain" => Some(plain_plan),
        "placing" => Some(placing),
        "both" => Some(both),
        "causes" => Some(causes),
        _ => None,
    }
}

/// A buffer that takes causes, which is more than a plan takes.
pub fn buffer() -> Vec<u8> {
    vec![7; CAUSES_BUFFER]
}

/// The bytes of sheets, the same for every measure.
pub fn texts(kind: Kind, sizes: Sizes, count: usize) -> Vec<Vec<u8>> {
    let sheets = sheets::sheets(kind, sizes, count, 1);
    sheets.iter().map(|sheet| sheet.text()).collect()
}

/// Makes the call on every sheet once.
pub fn once(engine: Engine, kind: Kind, count: usize) {
    let mut out = buffer();
    for sheet in texts(kind, FULL, count) {
        black_box(engine(&sheet, &mut out));
    }
}
