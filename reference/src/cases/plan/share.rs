//! Equally cut rations (request 111): `S` lends a sheet and both buffers, `R` goes through a range
//! of practice sheets with buffers as long as they must be. The payload of `S` has two parts, as
//! that of `B`; that of `R` has two numbers, the first seed and how many there are.

use super::planning::{LONGER, MOST_WORDS};
use super::{plan_case, short_days, Case};
use crate::cases::practice::{range_of, seeds_in};
use crate::cases::sheets::{
    beyond_days, day_of, first_day, held_day, refused_by, text, FIVE_COLUMN_PLAN, SHEET_CHECKS,
};
use crate::cases::{digest, digest_words, lent_buffer, lent_words, numbers_of, text_of};
use crate::damage::damaged_sheet;
use crate::draws::Draws;
use crate::generate::{
    any_sheet, crowded_sheet, heavy_sheet, held_full_sheet, held_sheet, Sizes, FULL, MIDDLE, SMALL,
};
use crate::listing::{PLACING_WORDS, PLAN_BUFFER};
use crate::practice::practice_sheet;
use crate::share::plan_share;
use crate::sheet::{Sheet, LINE, MOST_BLOWERS, MOST_RATIONS, MOST_SLOTS};

/// How many generated sheets there are: held, crowded, heavy, of any kind and damaged; and how
/// many held ones of the most slots, blowers and rations.
const GENERATED: [(Sizes, [u32; 5]); 3] = [
    (SMALL, [90, 40, 90, 20, 24]),
    (MIDDLE, [60, 30, 70, 10, 8]),
    (FULL, [8, 8, 10, 0, 2]),
];
const FULL_SHEETS: u32 = 10;

/// Ranges of seeds: the first seed and how many there are.
const RANGES: [[u32; 2]; 4] = [[0, 120], [40_000, 60], [99_960, 80], [u32::MAX - 59, 60]];

pub fn cases() -> Vec<Case> {
    let mut cases = Vec::new();
    let days = [
        first_day(),
        held_day(),
        day_of(1, 1, 0, &[[1, 1, 1]; 2]),
        day_of(96, 8, 1, &[]),
    ];
    for day in days {
        cases.extend(all_buffers(&text(&day)));
    }
    for number in SHEET_CHECKS {
        cases.extend(refused_by(number).iter().map(|sheet| exact_case(sheet)));
        cases.extend(short_buffers(&refused_by(number)[0]));
    }
    let days = [beyond_days(), short_days::days()].concat();
    cases.extend(days.iter().map(|lines| exact_case(&text(lines))));
    cases.extend(generated_cases());
    cases.extend(RANGES.map(range_case));
    cases
}

fn share_case(bytes: usize, words: usize, sheet: &[u8]) -> Case {
    plan_case(b'S', &[bytes, words], sheet)
}

/// A case with buffers as long as they must be.
fn exact_case(sheet: &[u8]) -> Case {
    share_case(PLAN_BUFFER, PLACING_WORDS, sheet)
}

fn range_case(range: [u32; 2]) -> Case {
    Case::new(b'R', 0, text_of(&range))
}

/// Buffers of which one is too short, or both: by one, and of length 0.
fn short_buffers(sheet: &[u8]) -> Vec<Case> {
    let lengths = [
        (PLAN_BUFFER - 1, PLACING_WORDS),
        (PLAN_BUFFER, PLACING_WORDS - 1),
        (PLAN_BUFFER - 1, PLACING_WORDS - 1),
        (0, 0),
    ];
    let case = |(bytes, words)| share_case(bytes, words, sheet);
    lengths.map(case).to_vec()
}

/// Buffers of all lengths: short ones; for one of them each length that could be taken for the
/// least, such as that without the bill, that of five columns, and as many words as 96 bytes make
/// or 96 words have bytes; and both longer.
fn all_buffers(sheet: &[u8]) -> Vec<Case> {
    let listings = [
        0,
        PLACING_WORDS,
        MOST_WORDS,
        FIVE_COLUMN_PLAN,
        PLAN_BUFFER - LINE,
        PLAN_BUFFER,
        PLAN_BUFFER + 1,
        LONGER,
    ];
    let placings = [
        0,
        PLACING_WORDS / WORD,
        PLACING_WORDS + 1,
        PLACING_WORDS * WORD,
        MOST_WORDS,
    ];
    let mut cases = short_buffers(sheet);
    cases.extend(listings.map(|bytes| share_case(bytes, PLACING_WORDS, sheet)));
    cases.extend(placings.map(|words| share_case(PLAN_BUFFER, words, sheet)));
    // Neither length stands for the other.
    cases.push(share_case(PLACING_WORDS, MOST_WORDS, sheet));
    cases.push(share_case(LONGER, MOST_WORDS, sheet));
    cases
}

/// Bytes of a word.
const WORD: usize = 8;

/// Generated sheets, most of them held. Of each three the second has buffers of one more, and the
/// third the longest.
fn generated_cases() -> Vec<Case> {
    let lengths = [
        (PLAN_BUFFER, PLACING_WORDS),
        (PLAN_BUFFER + 1, PLACING_WORDS + 1),
        (LONGER, MOST_WORDS),
    ];
    let lent = lengths.into_iter().cycle().zip(generated_sheets());
    lent.map(|((bytes, words), sheet)| share_case(bytes, words, &sheet))
        .collect()
}

fn generated_sheets() -> Vec<Vec<u8>> {
    let mut draws = Draws::new(111);
    let mut sheets = Vec::new();
    let kinds: [fn(&mut Draws, Sizes) -> Vec<u8>; 5] = [
        |draws, limits| held_sheet(draws, limits).text(),
        |draws, limits| crowded_sheet(draws, limits).text(),
        |draws, limits| heavy_sheet(draws, limits).text(),
        |draws, limits| any_sheet(draws, limits).text(),
        damaged_sheet,
    ];
    for (limits, counts) in GENERATED {
        for (kind, count) in kinds.iter().zip(counts) {
            sheets.extend((0..count).map(|_| kind(&mut draws, limits)));
        }
    }
    let largest = |_| held_largest_sheet(&mut draws).text();
    sheets.extend((0..FULL_SHEETS).map(largest));
    sheets
}

/// A held sheet of exactly the most slots, blowers and rations.
fn held_largest_sheet(draws: &mut Draws) -> Sheet {
    loop {
        let sheet = held_full_sheet(draws);
        if is_largest(&sheet) {
            return sheet;
        }
    }
}

fn is_largest(sheet: &Sheet) -> bool {
    let sizes = [sheet.slots, sheet.blowers, sheet.rations.len() as u32];
    sizes == [MOST_SLOTS, MOST_BLOWERS, MOST_RATIONS]
}

/// `S number line length share`, then `D` and the digests of the whole two buffers.
pub fn called(case: &Case) -> String {
    let (lengths, sheet) = case.parts();
    let [bytes, words] = numbers_of(lengths)[..] else {
        panic!("two buffers are lent");
    };
    let (answer, digests) = planned(sheet, bytes as usize, words as usize);
    format!("S {answer}\nD {digests}\n")
}

/// For each seed of the range `R seed number line length share` and the two digests.
pub fn gone_through(case: &Case) -> String {
    let line = |seed| {
        let sheet = practice_sheet(seed).text();
        let (answer, digests) = planned(&sheet, PLAN_BUFFER, PLACING_WORDS);
        format!("R {seed} {answer} {digests}\n")
    };
    seeds_in(range_of(&case.payload)).map(line).collect()
}

/// Number, line, length and share of the call with buffers of these lengths, and the digests of
/// the whole buffers after it.
fn planned(sheet: &[u8], bytes: usize, words: usize) -> (String, String) {
    let answer = plan_share(sheet, bytes, words);
    let (mut listing, mut placing) = (lent_buffer(bytes), lent_words(words));
    let length = answer.listing.len();
    listing[..length].copy_from_slice(&answer.listing);
    placing[..answer.placing.len()].copy_from_slice(&answer.placing);
    let numbers = [answer.number, answer.line, length as u32, answer.share];
    let digests = [digest(&listing), digest_words(&placing)];
    (spaced(&numbers), spaced(&digests))
}

fn spaced(numbers: &[u32]) -> String {
    let words: Vec<String> = numbers.iter().map(u32::to_string).collect();
    words.join(" ")
}

#[cfg(test)]
mod tests {
    use super::*;
    use crate::listing::{placing_words, plan_text};
    use crate::method;
    use crate::placing::shown_set;
    use crate::sheet::read;
    use std::collections::BTreeSet;

    /// An answered case of operation `S`.
    struct Answered {
        case: Case,
        numbers: Vec<u32>,
        digests: String,
    }

    impl Answered {
        fn lengths(&self) -> Vec<usize> {
            let lengths = numbers_of(self.case.parts().0);
            lengths.iter().map(|&length| length as usize).collect()
        }

        fn is_short(&self) -> bool {
            let lengths = self.lengths();
            lengths[0] < PLAN_BUFFER || lengths[1] < PLACING_WORDS
        }
    }

    fn answered() -> Vec<Answered> {
        let calls = cases().into_iter().filter(|case| case.operation == b'S');
        calls
            .map(|case| {
                let text = called(&case);
                let (answer, digests) = text.split_once('\n').expect("two lines");
                let words = answer.split(' ').skip(1);
                Answered {
                    case,
                    numbers: words.map(|word| word.parse().expect("a number")).collect(),
                    digests: digests.into(),
                }
            })
            .collect()
    }

    /// Each share from 1 to 100 is answered, and each refusal with share 0; 12 never is. The
    /// buffers of a refused call keep their values. A fault of the sheet comes before a short
    /// buffer, and there is one for each number.
    #[test]
    fn every_number_and_every_share_is_answered() {
        let (mut shares, mut faults, mut covered) = ([0; 101], [0; 14], [0; 14]);
        for a in answered() {
            let [number, line, length, share] = a.numbers[..] else {
                panic!("four numbers");
            };
            assert_eq!(number == 0, share > 0);
            shares[share as usize] += 1;
            faults[number as usize] += 1;
            if number == 0 {
                assert_eq!(line, 0);
                continue;
            }
            assert_eq!(length, 0);
            let lengths = a.lengths();
            let kept = [
                digest(&lent_buffer(lengths[0])),
                digest_words(&lent_words(lengths[1])),
            ];
            assert_eq!(a.digests, format!("D {}\n", spaced(&kept)));
            covered[number as usize] += u32::from(a.is_short());
            assert_eq!(number == 10, a.is_short() && read(a.case.parts().1).is_ok());
        }
        assert!(shares.iter().all(|&count| count > 0), "{shares:?}");
        assert!([49, 66, 99, 100].iter().all(|&share| shares[share] > 10));
        for number in SHEET_CHECKS.map(|number| number as usize) {
            assert!(
                faults[number] > 4 && covered[number] > 3,
                "{faults:?} {covered:?}"
            );
        }
        assert!(faults[10] > 30, "{faults:?}");
        assert_eq!(faults[11] + faults[12], 0);
    }

    #[test]
    fn most_generated_sheets_are_held() {
        let sheets: Vec<Sheet> = generated_sheets().iter().flat_map(|s| read(s)).collect();
        let held: Vec<&Sheet> = sheets.iter().filter(|s| shown_set(s).is_some()).collect();
        assert!(held.len() > 350 && held.len() < sheets.len() - 40);
        let largest = held.iter().filter(|s| is_largest(s));
        assert!(largest.count() >= FULL_SHEETS as usize);
    }

    #[test]
    fn more_than_half_of_the_practice_sheets_are_held() {
        let seeds: BTreeSet<u32> = RANGES.into_iter().flat_map(seeds_in).collect();
        assert_eq!(
            seeds.len() as u32,
            RANGES.iter().map(|range| range[1]).sum()
        );
        let is_held = |&&seed: &&u32| shown_set(&practice_sheet(seed)).is_some();
        let held = seeds.iter().filter(is_held).count();
        assert!(seeds.len() >= 300 && 2 * held > seeds.len());
        assert!(seeds.len() - held > 100);
    }

    /// The day of document 01 that is held, which `tests/share.rs` settles by hand.
    #[test]
    fn the_held_day_is_answered() {
        let listing = b"PLAN
     3     1     2     2
     1     1     1     0
     1     2     3     2
     2     1     1     1
     3     1     2     1
     0     5     0     0
";
        let held = text(&held_day());
        for (bytes, words) in [(PLAN_BUFFER, PLACING_WORDS), (LONGER, MOST_WORDS)] {
            let (mut buffer, mut placing) = (lent_buffer(bytes), lent_words(words));
            buffer[..listing.len()].copy_from_slice(listing);
            placing[..PLACING_WORDS].fill(0);
            placing[1..3].copy_from_slice(&[0b01, 0b10]);
            let (bytes_after, words_after) = (digest(&buffer), digest_words(&placing));
            assert_eq!(
                called(&share_case(bytes, words, &held)),
                format!("S 0 0 155 99\nD {bytes_after} {words_after}\n")
            );
        }
        let kept = [
            digest(&lent_buffer(PLAN_BUFFER)),
            digest_words(&lent_words(PLACING_WORDS - 1)),
        ];
        assert_eq!(
            called(&share_case(PLAN_BUFFER, PLACING_WORDS - 1, &held)),
            format!("S 10 0 0 0\nD {}\n", spaced(&kept))
        );
    }

    /// Seed 21, whose sheet `tests/practice.rs` works out by hand, fits as it is. A range has a
    /// line for each seed, in rising order.
    #[test]
    fn a_range_is_its_seeds_one_by_one() {
        let plan = method::plan(&practice_sheet(21)).expect("planned");
        let (mut buffer, listing) = (lent_buffer(PLAN_BUFFER), plan_text(&plan));
        buffer[..listing.len()].copy_from_slice(&listing);
        let digests = [digest(&buffer), digest_words(&placing_words(&plan))];
        assert_eq!(
            gone_through(&range_case([21, 1])),
            format!("R 21 0 0 {} 100 {}\n", listing.len(), spaced(&digests))
        );
        let one_by_one = [20, 21, 22].map(|seed| gone_through(&range_case([seed, 1])));
        assert_eq!(gone_through(&range_case([20, 3])), one_by_one.concat());
        assert_eq!(gone_through(&range_case([20, 0])), "");
    }
}
