//! Generated groups: sheets of all kinds and sizes, and ranges of practice sheets.

use crate::damage::damaged_sheet;
use crate::draws::Draws;
use crate::generate::{
    any_sheet, jagged_sheet, random_sheet, tight_sheet, Sizes, FULL, MIDDLE, SMALL,
};
use crate::groups::{group, Group};

/// How many groups there are of each size.
const GROUPS: [(Sizes, u32); 3] = [(SMALL, 300), (MIDDLE, 60), (FULL, 12)];

pub fn groups() -> Vec<Group> {
    let mut draws = Draws::new(81);
    let mut groups = Vec::new();
    for (limits, count) in GROUPS {
        for _ in 0..count {
            groups.push(group(&mut draws, |draws| some_sheet(draws, limits)));
        }
    }
    groups
}

fn some_sheet(draws: &mut Draws, limits: Sizes) -> Vec<u8> {
    match draws.below(12) {
        0 => damaged_sheet(draws, limits),
        1 | 2 => tight_sheet(draws, limits).text(),
        3 | 4 => jagged_sheet(draws, limits).text(),
        5 | 6 => any_sheet(draws, limits).text(),
        _ => random_sheet(draws, limits).text(),
    }
}

/// Ranges of groups of practice sheets: the limit, the number of halls, the first seed and
/// how many groups there are.
const RANGES: [[u32; 4]; 6] = [
    [1, 4, 2_000, 4],
    [8, 4, 3_000, 8],
    [10, 3, 4_000, 6],
    [16, 4, 6_000, 8],
    [24, 2, 7_000, 4],
    [32, 4, u32::MAX - 15, 4],
];

/// The limit and the first seed of groups of which one hall, the second, third or fourth, is
/// planned otherwise than alone: of most groups none is.
const ELSEWHERE: [[u32; 2]; 36] = [
    [4, 8],
    [6, 32],
    [6, 36],
    [18, 44],
    [2, 112],
    [6, 116],
    [2, 132],
    [3, 220],
    [5, 272],
    [7, 296],
    [5, 392],
    [6, 484],
    [3, 488],
    [4, 504],
    [8, 552],
    [14, 564],
    [14, 576],
    [5, 580],
    [3, 644],
    [15, 656],
    [9, 664],
    [7, 696],
    [4, 752],
    [6, 768],
    [6, 844],
    [3, 852],
    [5, 912],
    [7, 924],
    [8, 1_012],
    [8, 1_032],
    [10, 1_204],
    [2, 1_284],
    [4, 1_300],
    [4, 1_376],
    [12, 1_392],
    [8, 1_456],
];

/// All ranges, those of one group too.
pub fn ranges() -> Vec<[u32; 4]> {
    let one = |[limit, seed]: [u32; 2]| [limit, 4, seed, 1];
    RANGES.into_iter().chain(ELSEWHERE.map(one)).collect()
}

#[cfg(test)]
mod tests {
    use super::super::{seed_groups, seeds_case};
    use super::*;
    use crate::halls::{plan_halls, MOST_HALLS, MOST_LIMIT};

    /// Practice sheets are planned and held under limits, and each hall but the first is
    /// planned otherwise than alone.
    #[test]
    fn practice_sheets_share_a_limit() {
        let (mut planned, mut held, mut elsewhere) = (0, 0, [0; MOST_HALLS]);
        for range in ranges() {
            for (_, group) in seed_groups(&seeds_case(range)) {
                let answer = plan_halls(group.limit, group.halls, &group.lent);
                for (i, answer) in answer.halls.iter().enumerate() {
                    let mut lent = group.lent.clone();
                    lent.swap(0, i);
                    let alone = &plan_halls(MOST_LIMIT, 1, &lent).halls[0];
                    let is_planned = answer.number == 0 && !answer.listing.is_empty();
                    planned += u32::from(is_planned);
                    held += u32::from(answer.number == 12);
                    elsewhere[i] += u32::from(is_planned && answer != alone);
                }
            }
        }
        assert!(planned > 80 && held > 80, "{planned} planned, {held} held");
        assert!(elsewhere[1..].iter().all(|&n| n >= 12), "{elsewhere:?}");
    }
}
