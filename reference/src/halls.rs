//! Halls behind one mains fuse (request 108): up to four sheets, one after another, each under
//! what the earlier ones leave of a limit on the busy blowers of a slot.

use crate::listing::{held_text_under, placing_words, plan_text, PLACING_WORDS, PLAN_BUFFER};
use crate::method::plan_under;
use crate::sheet::{read, Refusal, MOST_SLOTS};

/// The most halls of a call.
pub const MOST_HALLS: usize = 4;
/// The highest limit.
pub const MOST_LIMIT: u32 = 32;

/// What is lent for a hall: its sheet, a listing buffer of so many bytes and a placing
/// buffer of so many words.
#[derive(Clone, Debug, Default, PartialEq, Eq)]
pub struct Hall {
    pub sheet: Vec<u8>,
    pub listing_bytes: usize,
    pub placing_words: usize,
}

/// A hall's answer, and what is written at the front of its buffers. The length is that of
/// the listing. Bytes and words after what is written keep their values.
#[derive(Clone, Debug, Default, PartialEq, Eq)]
pub struct HallPlanned {
    pub number: u32,
    pub line: u32,
    pub listing: Vec<u8>,
    pub placing: Vec<u64>,
}

impl From<Refusal> for HallPlanned {
    /// A refusal, for which nothing is written.
    fn from(Refusal { number, line }: Refusal) -> Self {
        HallPlanned {
            number,
            line,
            ..HallPlanned::default()
        }
    }
}

/// The number and line of the call itself, and each hall's answer in list order. That of a
/// hall that is not there is all zeros, and so is every hall's on 14.
#[derive(Clone, Debug, Default, PartialEq, Eq)]
pub struct HallsPlanned {
    pub number: u32,
    pub line: u32,
    pub halls: [HallPlanned; MOST_HALLS],
}

/// The call: number 14, before all sheets, where the limit or the number of halls is out of
/// range; else the halls, one after another, each under what the earlier ones leave.
pub fn plan_halls(limit: u32, halls: u32, lent: &[Hall; MOST_HALLS]) -> HallsPlanned {
    let mut answer = HallsPlanned::default();
    if !(1..=MOST_LIMIT).contains(&limit) || !(1..=MOST_HALLS as u32).contains(&halls) {
        answer.number = 14;
        return answer;
    }
    // The limit less what the halls so far use.
    let mut left = [limit; MOST_SLOTS as usize];
    let there = lent.iter().take(halls as usize);
    for (hall, planned) in there.zip(&mut answer.halls) {
        let used;
        (*planned, used) = plan_hall(hall, &left);
        for (left, count) in left.iter_mut().zip(used) {
            *left -= count;
        }
    }
    answer
}

/// A hall's answer under what is left, and what it uses: its counts, which end with its own
/// last slot, and nothing if it is refused by any number. Checks 1 to 9 and 13, 10 for both
/// buffers, then 12.
fn plan_hall(hall: &Hall, left: &[u32]) -> (HallPlanned, Vec<u32>) {
    let sheet = match read(&hall.sheet) {
        Ok(sheet) => sheet,
        Err(refusal) => return (refusal.into(), vec![]),
    };
    if hall.listing_bytes < PLAN_BUFFER || hall.placing_words < PLACING_WORDS {
        let (number, line) = (10, 0);
        return (Refusal { number, line }.into(), vec![]);
    }
    let own = &left[..sheet.slots as usize];
    let highs: Vec<u32> = own.iter().map(|&left| left.min(sheet.blowers)).collect();
    let (number, listing, placing, used) = match plan_under(&sheet, &highs) {
        Ok(plan) => (0, plan_text(&plan), placing_words(&plan), plan.counts),
        Err(shown) => {
            let listing = held_text_under(&sheet, &highs, &shown);
            (12, listing, [0; PLACING_WORDS], vec![])
        }
    };
    let planned = HallPlanned {
        number,
        line: 0,
        listing,
        placing: placing.to_vec(),
    };
    (planned, used)
}
