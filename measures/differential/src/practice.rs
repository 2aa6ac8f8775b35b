//! The call that writes the practice sheet of a seed.

use crate::calls::{holds, same, sizes, Buffers, Checked};
use reference::draws::Draws;
use reference::practice::{practice, practice_sheet, LAST_SEED};
use reference::sheet::{LINE, MOST_RATIONS};

/// The longest practice sheet, 1,625 bytes.
const LONGEST: usize = LINE * (MOST_RATIONS as usize + 1);

/// The first and the last seeds of the program and of 32 bits, those beside them, the last that
/// a field holds, and those after which s is 0 and 2^32 − 1.
const EDGES: [u32; 10] = [
    0,
    1,
    LAST_SEED - 1,
    LAST_SEED,
    LAST_SEED + 1,
    999_999,
    u32::MAX - 1,
    u32::MAX,
    634_785_765,
    653_637_408,
];

/// The seed that is tried beside the sheet with this place in the run: first the edges, then
/// one of the program's and any one in turn.
pub fn seed_at(place: usize, draws: &mut Draws) -> u32 {
    let any = draws.draw() << 16 | draws.draw();
    match EDGES.get(place) {
        Some(&edge) => edge,
        None if place.is_multiple_of(2) => any % (LAST_SEED + 1),
        None => any,
    }
}

/// With buffers too short, just long enough and longer.
pub fn check_practice(seed: u32, draws: &mut Draws, b: &mut Buffers) -> Checked {
    let least = LINE * (practice_sheet(seed).rations.len() + 1);
    let short = draws.index(least);
    for size in sizes(least, draws).into_iter().chain([short, LONGEST]) {
        let mut model = vec![0; size];
        let expected = practice(seed, &mut model);
        let answer = library::practice(seed, b.sheet.lend(size));
        let numbers = (answer.number, answer.line, answer.length);
        same("practice", numbers, expected)?;
        holds("practice", &mut b.sheet, &model[..expected.2])?;
    }
    Ok(())
}
