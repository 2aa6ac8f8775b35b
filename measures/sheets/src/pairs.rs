//! Pairs of sheets to compare with each other: a sheet and a copy with one small change, or two small ones.

use crate::mixture::draws_at;
use reference::draws::Draws;
use reference::generate::{
    any_sheet, full_sheet, jagged_sheet, settled_full_sheet, tight_sheet, FULL, MIDDLE, SMALL,
};
use reference::pairs::pair;
use reference::sheet::Sheet;

/// The pair with this place in the run, which can be made again without those before it.
pub fn pair_at(place: usize) -> [Vec<u8>; 2] {
    pair(&mut draws_at(place), some_sheet)
}

/// Mostly a small sheet, since the reference needs long for a large one. The first difference of two full days that
/// leave no choice may be in any slot, and in any place of its list.
fn some_sheet(draws: &mut Draws) -> Sheet {
    let limits = match draws.below(100) {
        0 => return full_sheet(draws),
        1..9 => return settled_full_sheet(draws),
        9..14 => FULL,
        14..40 => MIDDLE,
        _ => SMALL,
    };
    let kind = [any_sheet, tight_sheet, jagged_sheet][draws.index(3)];
    kind(draws, limits)
}
