//! Practice sheets: made from their seeds, and the same sheets written from their numbers and
//! read.

use crate::engines;
use reference::practice::practice_sheet;
use reference::sheet::MOST_RATIONS;
use std::hint::black_box;

/// Makes a call once for each of the first seeds that draw so many rations.
pub fn once(call: &str, rations: u32, count: usize) -> Option<()> {
    if rations > MOST_RATIONS {
        return None;
    }
    let mut out = engines::buffer();
    let draws_so_many = |&seed: &u32| practice_sheet(seed).rations.len() == rations as usize;
    for seed in (0..=u32::MAX).filter(draws_so_many).take(count) {
        let sheet = practice_sheet(seed);
        match call {
            "practice" => {
                black_box(library::practice(seed, &mut out));
            }
            "write" => {
                let head = [sheet.slots, sheet.blowers, sheet.wake, rations];
                black_box(library::write(head, &sheet.flat_rations(), &mut out));
            }
            "read" => {
                black_box(library::read(&sheet.text()));
            }
            _ => return None,
        }
    }
    Some(())
}
