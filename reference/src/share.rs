//! Short rations, equally cut (request 111): the sheet of a share, the greatest share whose
//! sheet has a sound placing, and the call `plan_share`.

use crate::listing::{placing_words, plan_text, PLACING_WORDS, PLAN_BUFFER};
use crate::method;
use crate::placing::Question;
use crate::sheet::{read, Ration, Refusal, Sheet};

/// The share that cuts nothing, and the greatest.
pub const WHOLE: u32 = 100;

/// The answer of the call, and what is written at the front of its buffers. The length is
/// that of the listing. Bytes and words after what is written keep their values.
#[derive(Clone, Debug, Default, PartialEq, Eq)]
pub struct SharePlanned {
    pub number: u32,
    pub line: u32,
    pub share: u32,
    pub listing: Vec<u8>,
    pub placing: Vec<u64>,
}

impl From<Refusal> for SharePlanned {
    /// A refusal: the share is 0, and nothing is written.
    fn from(Refusal { number, line }: Refusal) -> Self {
        SharePlanned {
            number,
            line,
            ..SharePlanned::default()
        }
    }
}

/// The sheet of a share: each volume × share / 100, rounded down. A ration that is cut to 0
/// stays where it is, so that those after it keep their places and their bits.
pub fn cut_sheet(sheet: &Sheet, share: u32) -> Sheet {
    let cut = |ration: &Ration| Ration {
        volume: ration.volume * share / WHOLE,
        ..*ration
    };
    Sheet {
        rations: sheet.rations.iter().map(cut).collect(),
        ..*sheet
    }
}

/// For each share from 0 to 100, whether its sheet has a sound placing.
///
/// Every share is tried, by a max flow of its own sheet, and nothing is concluded from a
/// greater share to a smaller one. Only where a share's sheet is that of the share before it,
/// so is the answer. The flow starts from the placing found last; this changes nothing but the
/// time.
pub fn sound_shares(sheet: &Sheet) -> Vec<bool> {
    let mut known = vec![vec![false; sheet.slots as usize]; sheet.rations.len()];
    let mut before: Option<(Sheet, bool)> = None;
    let mut answers = Vec::new();
    for share in 0..=WHOLE {
        let cut = cut_sheet(sheet, share);
        let is_sound = match before {
            Some((same, answer)) if same == cut => answer,
            _ => match Question::of_day(&cut).solve(Some(&known)) {
                Ok(placing) => {
                    known = placing;
                    true
                }
                Err(_) => false,
            },
        };
        answers.push(is_sound);
        before = Some((cut, is_sound));
    }
    answers
}

/// The greatest share whose sheet has a sound placing. No volume is above 96, so that share 1
/// cuts all of them to 0: it is never 0.
pub fn greatest_share(sheet: &Sheet) -> u32 {
    let greatest = sound_shares(sheet).iter().rposition(|&is_sound| is_sound);
    greatest.expect("to feed nothing is sound") as u32
}

/// The call, lent a listing buffer of so many bytes and a placing buffer of so many words.
/// Checks 1 to 9 and 13, then 10 for both buffers; 12 is never given. The listing and the
/// words are those of the plan of the cut sheet.
pub fn plan_share(bytes: &[u8], listing_bytes: usize, placing_word_count: usize) -> SharePlanned {
    let sheet = match read(bytes) {
        Ok(sheet) => sheet,
        Err(refusal) => return refusal.into(),
    };
    if listing_bytes < PLAN_BUFFER || placing_word_count < PLACING_WORDS {
        let (number, line) = (10, 0);
        return Refusal { number, line }.into();
    }
    let share = greatest_share(&sheet);
    let plan = method::plan(&cut_sheet(&sheet, share)).expect("the share has a sound placing");
    SharePlanned {
        number: 0,
        line: 0,
        share,
        listing: plan_text(&plan),
        placing: placing_words(&plan).to_vec(),
    }
}
