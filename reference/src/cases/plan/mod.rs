//! Cases for the planning calls: `P` lends a plan buffer, `G` a placing buffer, `B`
//! both and `N` none; `C` compares two sheets; `S` and `R` cut rations to a share, see
//! `share.rs`. The payload has two parts, but for `R`. For `C` they are the two sheets,
//! else the lengths of the lent buffers, one a line, and the sheet. A plan buffer's length
//! is in bytes, a placing buffer's in words.

mod comparing;
mod orders;
mod planning;
mod share;
mod short_days;

use super::{digest, digest_words, lent_buffer, lent_words, numbers_of, text_of, Case};
use crate::comparison::compare;
use crate::listing::plan;

/// All cases of this gate program.
pub fn cases() -> Vec<Case> {
    let mut cases = planning::cases();
    cases.extend(comparing::cases());
    cases.extend(share::cases());
    cases
}

/// The output expected for these cases.
pub fn output(cases: &[Case]) -> Vec<u8> {
    cases.iter().map(answer).collect::<String>().into_bytes()
}

fn answer(case: &Case) -> String {
    match case.operation {
        b'C' => compared(case),
        b'S' => share::called(case),
        b'R' => share::gone_through(case),
        _ => planned(case),
    }
}

/// `C`, number, line and the order's number.
fn compared(case: &Case) -> String {
    let (first, second) = case.parts();
    let (number, line, order) = compare(first, second);
    format!("C {number} {line} {}\n", order as u32)
}

/// The operation, number, line and length, then `D` and the digest of each whole
/// buffer.
fn planned(case: &Case) -> String {
    let (lengths, sheet) = case.parts();
    let (bytes, words) = match (case.operation, &numbers_of(lengths)[..]) {
        (b'P', &[bytes]) => (Some(bytes), None),
        (b'G', &[words]) => (None, Some(words)),
        (b'B', &[bytes, words]) => (Some(bytes), Some(words)),
        (b'N', []) => (None, None),
        (other, _) => panic!("no operation {other} with so many buffers"),
    };
    let mut listing = bytes.map(|length| lent_buffer(length as usize));
    let mut placing = words.map(|length| lent_words(length as usize));
    let (number, line, length) = plan(sheet, listing.as_deref_mut(), placing.as_deref_mut());
    let mut text = format!("{} {number} {line} {length}\n", case.operation as char);
    let digests = [
        listing.map(|bytes| digest(&bytes)),
        placing.map(|words| digest_words(&words)),
    ];
    if digests.iter().any(Option::is_some) {
        let numbers = digests.iter().flatten().map(|digest| format!(" {digest}"));
        text += &format!("D{}\n", numbers.collect::<String>());
    }
    text
}

/// A case that lends buffers of these lengths.
fn plan_case(operation: u8, lengths: &[usize], sheet: &[u8]) -> Case {
    let lengths: Vec<u32> = lengths.iter().map(|&length| length as u32).collect();
    Case::in_parts(operation, &text_of(&lengths), sheet)
}

fn compare_case(first: &[u8], second: &[u8]) -> Case {
    Case::in_parts(b'C', first, second)
}

#[cfg(test)]
mod tests {
    use super::planning::{LONGER, MOST_WORDS};
    use super::*;
    use crate::cases::assert_streamed;
    use crate::cases::sheets::{first_day, held_day, text};
    use crate::listing::{PLACING_WORDS, PLAN_BUFFER};

    #[test]
    fn the_stream_holds_the_cases() {
        assert_streamed(&cases(), 1_600_000);
    }

    /// Where a case asks for more, the gate program answers nothing.
    #[test]
    fn no_case_lends_more_than_the_program_has_room_for() {
        for case in cases() {
            let most: &[usize] = match case.operation {
                b'P' => &[LONGER],
                b'G' => &[MOST_WORDS],
                b'B' | b'S' => &[LONGER, MOST_WORDS],
                _ => continue,
            };
            let lengths = numbers_of(case.parts().0);
            assert_eq!(lengths.len(), most.len());
            let fits = |(&length, &most)| length as usize <= most;
            assert!(lengths.iter().zip(most).all(fits), "{lengths:?}");
        }
    }

    #[test]
    fn every_number_is_shown() {
        let small = |case: &&Case| case.payload.len() < 400;
        // The answers of the others are looked at in `share.rs`.
        let own = |case: &&Case| b"PGBNC".contains(&case.operation);
        let cases = cases();
        let answers: Vec<String> = cases.iter().filter(own).filter(small).map(answer).collect();
        for (operation, numbers) in [("P", 0..=13), ("G", 0..=13), ("B", 0..=13), ("N", 0..=9)] {
            for number in numbers.filter(|&number| number != 11) {
                let start = format!("{operation} {number} ");
                assert!(answers.iter().any(|a| a.starts_with(&start)), "{start}");
            }
        }
        assert!(answers.contains(&"N 12 0 0\n".to_string()));
        assert!(answers.contains(&"N 13 3 0\n".to_string()));
        for number in [1, 2, 3, 4, 5, 6, 7, 8, 9, 12, 13] {
            let start = format!("C {number} ");
            assert!(answers.iter().any(|a| a.starts_with(&start)), "{start}");
        }
        let count = |text| answers.iter().filter(|&a| a == text).count();
        assert_eq!(count("C 0 0 0\n"), 0);
        for text in ["C 0 0 1\n", "C 0 0 2\n", "C 0 0 3\n", "C 12 0 0\n"] {
            assert!(count(text) > 100, "{text}");
        }
    }

    #[test]
    fn the_first_day_and_the_held_day_are_answered() {
        let (first, held) = (text(&first_day()), text(&held_day()));
        let (listing, placing) = (lent_buffer(PLAN_BUFFER), lent_words(PLACING_WORDS));
        let mut first_words = [0; PLACING_WORDS];
        first_words[..4].copy_from_slice(&[0b001, 0b001, 0b110, 0b010]);
        let starts = |case: &Case, start: &str| assert!(answer(case).starts_with(start));
        starts(&plan_case(b'P', &[PLAN_BUFFER], &first), "P 0 0 280\nD ");
        starts(&plan_case(b'P', &[PLAN_BUFFER], &held), "P 12 0 55\nD ");
        assert_eq!(
            answer(&plan_case(b'G', &[PLACING_WORDS], &first)),
            format!("G 0 0 0\nD {}\n", digest_words(&first_words))
        );
        assert_eq!(
            answer(&plan_case(b'G', &[PLACING_WORDS], &held)),
            "G 12 0 0\nD 0\n"
        );
        assert_eq!(
            answer(&plan_case(b'B', &[PLAN_BUFFER - 1, PLACING_WORDS], &held)),
            format!(
                "B 10 0 0\nD {} {}\n",
                digest(&listing[..PLAN_BUFFER - 1]),
                digest_words(&placing)
            )
        );
        assert_eq!(answer(&plan_case(b'N', &[], &first)), "N 0 0 0\n");
        assert_eq!(answer(&compare_case(&first, &first)), "C 0 0 1\n");
        assert_eq!(answer(&compare_case(&held, b"")), "C 12 0 0\n");
    }
}
