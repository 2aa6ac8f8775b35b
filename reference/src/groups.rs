//! Generated groups of halls for the call of request 108.

use crate::draws::Draws;
use crate::halls::{Hall, MOST_HALLS, MOST_LIMIT};
use crate::listing::{PLACING_WORDS, PLAN_BUFFER};
use crate::sheet::{read, LINE};

/// The input of a call: the limit, how many halls there are, and what is lent for four.
#[derive(Clone, Debug, PartialEq, Eq)]
pub struct Group {
    pub limit: u32,
    pub halls: u32,
    pub lent: [Hall; MOST_HALLS],
}

/// Beyond the least length of a buffer, so many bytes or words are lent at most.
const MORE: usize = 40;
/// The longest listing buffer of a group.
pub const LONGEST_LISTING: usize = PLAN_BUFFER + MORE;
/// The longest placing buffer of a group.
pub const LONGEST_PLACING: usize = PLACING_WORDS + MORE;

/// Limits out of range: those at its ends, and those that a narrower number would take for
/// one in range.
pub const ODD_LIMITS: [u32; 8] = [0, 33, 255, 256, 257, 65_537, 1 << 31, u32::MAX];
/// Such numbers of halls.
pub const ODD_HALLS: [u32; 8] = [0, 5, 255, 256, 257, 65_537, 1 << 31, u32::MAX];

/// A group whose sheets `sheet` makes. As often as not a hall has the windows of an earlier
/// one, so that both want the same slots. Once in a while the group is refused by 14, or a
/// hall is lent too short a buffer. Of the halls that are not there some are lent a sheet
/// and buffers all the same.
pub fn group(draws: &mut Draws, mut sheet: impl FnMut(&mut Draws) -> Vec<u8>) -> Group {
    let there = draws.between(1, MOST_HALLS as u32);
    let mut lent: [Hall; MOST_HALLS] = Default::default();
    for i in 0..MOST_HALLS {
        if i < there as usize || draws.one_in(2) {
            let bytes = match i {
                1.. if draws.one_in(2) => lent[draws.index(i)].sheet.clone(),
                _ => sheet(draws),
            };
            lent[i] = some_hall(draws, bytes);
        }
    }
    let limit = some_limit(draws, &lent[..there as usize]);
    let (limit, halls) = match draws.below(64) {
        0 => (ODD_LIMITS[draws.index(ODD_LIMITS.len())], there),
        1 => (limit, ODD_HALLS[draws.index(ODD_HALLS.len())]),
        _ => (limit, there),
    };
    Group { limit, halls, lent }
}

/// A limit that mostly binds: seldom any, now and then up to all blowers of the halls, and
/// else up to the blowers of one hall.
fn some_limit(draws: &mut Draws, halls: &[Hall]) -> u32 {
    let sheets = halls.iter().flat_map(|hall| read(&hall.sheet));
    let blowers: Vec<u32> = sheets.map(|sheet| sheet.blowers).collect();
    let most = match draws.below(6) {
        0 => MOST_LIMIT,
        1 | 2 => blowers.iter().sum(),
        _ => blowers.iter().copied().max().unwrap_or(0),
    };
    draws.between(1, most.clamp(1, MOST_LIMIT))
}

fn some_hall(draws: &mut Draws, sheet: Vec<u8>) -> Hall {
    Hall {
        sheet: lightened(draws, sheet),
        listing_bytes: some_length(draws, PLAN_BUFFER, LINE),
        placing_words: some_length(draws, PLACING_WORDS, 1),
    }
}

/// The sheet as it is, or with less to feed: a sheet that needs all its blowers is held
/// wherever the limit leaves it fewer.
fn lightened(draws: &mut Draws, bytes: Vec<u8>) -> Vec<u8> {
    let Ok(mut sheet) = read(&bytes) else {
        return bytes;
    };
    let quarters = draws.between(1, 4);
    for ration in &mut sheet.rations {
        ration.volume = (ration.volume * quarters / 4).max(1);
    }
    sheet.text()
}

/// A buffer's length: now and then none, one too few, or a bigger step too few; else just
/// enough, or more.
fn some_length(draws: &mut Draws, least: usize, step: usize) -> usize {
    match draws.below(120) {
        0 => 0,
        1 => least - 1,
        2 => least - step,
        _ if draws.one_in(2) => least,
        _ => least + draws.index(MORE + 1),
    }
}

#[cfg(test)]
mod tests {
    use super::*;
    use crate::generate::{any_sheet, SMALL};
    use crate::halls::plan_halls;
    use crate::listing::plan;

    /// Of the halls that are planned or held under a limit, many are answered otherwise than
    /// alone, and a held one may be planned alone.
    #[test]
    fn limits_bind_and_leave_enough() {
        let mut draws = Draws::new(108);
        let (mut elsewhere, mut as_alone, mut held_by_limit, mut refused) = (0, 0, 0, 0);
        for _ in 0..800 {
            let Group { limit, halls, lent } = group(&mut draws, |d| any_sheet(d, SMALL).text());
            let answer = plan_halls(limit, halls, &lent);
            refused += u32::from(answer.number == 14);
            for (hall, answer) in lent.iter().zip(&answer.halls) {
                let mut listing = vec![0; PLAN_BUFFER];
                let (alone, _, length) = plan(&hall.sheet, Some(&mut listing), None);
                match answer.number {
                    0 if answer.listing.is_empty() => {}
                    0 if answer.listing == listing[..length] => as_alone += 1,
                    0 => elsewhere += 1,
                    12 => held_by_limit += u32::from(alone == 0),
                    _ => {}
                }
            }
        }
        assert!(elsewhere > 50, "{elsewhere} planned elsewhere");
        assert!(as_alone > 200, "{as_alone} planned as alone");
        assert!(held_by_limit > 100, "{held_by_limit} held by the limit");
        assert!((5..40).contains(&refused), "{refused} refused by 14");
    }
}
