//! The search along a chain of moves from a slot to one that has room.

use crate::{Bytes, Words, SLOTS};

pub fn has_room(word: u64, high: u8) -> bool {
    word.count_ones() < u32::from(high)
}

/// Spreads from slot x in sweeps, and gives the first slot with room that it meets.
fn spread(
    fed: &Words,
    rest: &Words,
    high: &Bytes,
    seen: &mut Bytes,
    order: &mut Bytes,
    x: usize,
) -> Option<usize> {
    seen[x] = 1;
    order[x] = 1;
    let mut reached = fed[x];
    let mut last = 1;
    loop {
        let before = last;
        for y in 0..SLOTS {
            if seen[y] == 0 && reached & rest[y] != 0 {
                last += 1;
                seen[y] = 1;
                order[y] = last;
                if has_room(fed[y], high[y]) {
                    return Some(y);
                }
                reached |= fed[y];
            }
        }
        if last == before {
            return None;
        }
    }
}

/// Moves a ration from slot x to slot y.
pub fn shift(fed: &mut Words, rest: &mut Words, x: usize, y: usize) {
    let both = fed[x] & rest[y];
    let ration = both & both.wrapping_neg();
    fed[x] ^= ration;
    rest[x] ^= ration;
    fed[y] ^= ration;
    rest[y] ^= ration;
}

/// Moves a ration along the chain that ends in slot `end`, the last move first.
fn carry(fed: &mut Words, rest: &mut Words, order: &Bytes, x: usize, end: usize) {
    let mut y = end;
    while y != x {
        let parent = (0..SLOTS)
            .find(|&p| order[p] != 0 && order[p] < order[y] && fed[p] & rest[y] != 0)
            .expect("a marked slot was reached from one marked before");
        shift(fed, rest, parent, y);
        y = parent;
    }
}

/// Frees a place in slot x by a chain of any length, or marks the slots reached from it.
pub fn push_along(
    fed: &mut Words,
    rest: &mut Words,
    high: &Bytes,
    seen: &mut Bytes,
    x: usize,
) -> bool {
    let mut order = [0; SLOTS];
    match spread(fed, rest, high, seen, &mut order, x) {
        Some(end) => {
            carry(fed, rest, &order, x, end);
            true
        }
        None => false,
    }
}

/// Frees a place in slot x, or marks the slots reached from it. Most often one move does.
pub fn push(fed: &mut Words, rest: &mut Words, high: &Bytes, seen: &mut Bytes, x: usize) -> bool {
    let from = fed[x];
    let is_open = |&y: &usize| from & rest[y] != 0 && seen[y] == 0 && has_room(fed[y], high[y]);
    if let Some(y) = (x + 1..SLOTS).find(is_open) {
        shift(fed, rest, x, y);
        return true;
    }
    push_along(fed, rest, high, seen, x)
}
