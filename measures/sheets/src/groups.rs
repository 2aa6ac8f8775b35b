//! Groups of halls to compare answers on: sheets of the mixture, and practice sheets.

use crate::mixture::{draws_at, kind_at, KINDS};
use reference::draws::Draws;
use reference::groups::{group, Group};
use reference::practice::practice_sheet;

/// One hall in so many has a practice sheet. They are of 96 slots, and the reference needs milliseconds for one.
const PRACTICE: u32 = 12;

/// The group with this place in the run, which can be made again without those before it.
pub fn group_at(place: usize) -> Group {
    group(&mut draws_at(place), some_sheet)
}

fn some_sheet(draws: &mut Draws) -> Vec<u8> {
    if draws.one_in(PRACTICE) {
        return practice_sheet(draws.draw()).text();
    }
    let kind = &KINDS[kind_at(draws.index(10_000))];
    (kind.make)(draws)
}
