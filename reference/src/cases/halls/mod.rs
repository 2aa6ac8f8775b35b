//! Cases for halls (request 108): `H` plans a group of halls, `S` a range of groups whose
//! sheets are practice sheets. The payload of `H` has two parts: the limit, the number of
//! halls and for each of four halls where its sheet begins and the lengths of its sheet, of
//! its listing buffer and of its placing buffer, one a line; then the sheets. A sheet that
//! several halls have stands there once. The payload of `S` has the limit, the number of
//! halls, the first seed and how many groups there are, each of four seeds.

mod generated;
mod groups;

use super::{digest, digest_words, lent_buffer, lent_words, numbers_of, text_of, Case};
use crate::groups::{Group, LONGEST_LISTING, LONGEST_PLACING};
use crate::halls::{plan_halls, Hall, HallPlanned, MOST_HALLS};
use crate::listing::{PLACING_WORDS, PLAN_BUFFER};
use crate::practice::practice_sheet;
use generated::ranges;

/// All cases of this gate program.
pub fn cases() -> Vec<Case> {
    let groups = [groups::groups(), generated::groups()].concat();
    let groups = groups.iter().map(group_case);
    let ranges = ranges().into_iter().map(seeds_case);
    groups.chain(ranges).collect()
}

/// A sheet lent with buffers as long as they must be.
fn exact_hall(sheet: Vec<u8>) -> Hall {
    Hall {
        sheet,
        listing_bytes: PLAN_BUFFER,
        placing_words: PLACING_WORDS,
    }
}

fn group_case(group: &Group) -> Case {
    let mut numbers = vec![group.limit, group.halls];
    let mut sheets: Vec<u8> = Vec::new();
    let mut starts: Vec<(&[u8], usize)> = Vec::new();
    for hall in &group.lent {
        let known = starts.iter().find(|(sheet, _)| *sheet == hall.sheet);
        let start = known.map_or(sheets.len(), |&(_, start)| start);
        if known.is_none() {
            starts.push((&hall.sheet, start));
            sheets.extend(&hall.sheet);
        }
        let length = hall.sheet.len();
        let lent = [start, length, hall.listing_bytes, hall.placing_words];
        numbers.extend(lent.map(|number| number as u32));
    }
    Case::in_parts(b'H', &text_of(&numbers), &sheets)
}

/// The group of such a case.
fn group_of(case: &Case) -> Group {
    let (numbers, sheets) = case.parts();
    let numbers = numbers_of(numbers);
    let mut lent: [Hall; MOST_HALLS] = Default::default();
    for (hall, numbers) in lent.iter_mut().zip(numbers[2..].chunks(4)) {
        let numbers: Vec<usize> = numbers.iter().map(|&number| number as usize).collect();
        *hall = Hall {
            sheet: sheets[numbers[0]..][..numbers[1]].to_vec(),
            listing_bytes: numbers[2],
            placing_words: numbers[3],
        };
    }
    Group {
        limit: numbers[0],
        halls: numbers[1],
        lent,
    }
}

fn seeds_case(range: [u32; 4]) -> Case {
    Case::new(b'S', 0, text_of(&range))
}

/// The first seeds of the groups of such a case, and the groups.
fn seed_groups(case: &Case) -> Vec<(u32, Group)> {
    let [limit, halls, first, count] = numbers_of(&case.payload)[..] else {
        panic!("four numbers name a range");
    };
    let made = |i: u32| {
        let seed = first + i * MOST_HALLS as u32;
        let lent = [0, 1, 2, 3].map(|hall| exact_hall(practice_sheet(seed + hall).text()));
        (seed, Group { limit, halls, lent })
    };
    (0..count).map(made).collect()
}

/// The output expected for these cases.
pub fn output(cases: &[Case]) -> Vec<u8> {
    cases.iter().map(answer).collect::<String>().into_bytes()
}

fn answer(case: &Case) -> String {
    match case.operation {
        b'H' => format!("H {}", answered(&group_of(case))),
        b'S' => seed_groups(case)
            .iter()
            .map(|(seed, group)| format!("S {seed} {}", answered(group)))
            .collect(),
        operation => panic!("no operation {operation}"),
    }
}

/// `number line` of the call, then for each of the four halls a line.
fn answered(group: &Group) -> String {
    let answer = plan_halls(group.limit, group.halls, &group.lent);
    let halls: String = answer.halls.iter().map(hall_line).collect();
    format!("{} {}\n{halls}", answer.number, answer.line)
}

/// `D number line length` and the digests of two rooms, of which the front is lent to the
/// call: so bytes and words after a buffer count as well as those in it.
fn hall_line(answer: &HallPlanned) -> String {
    let (number, line, length) = (answer.number, answer.line, answer.listing.len());
    let (mut bytes, mut words) = (lent_buffer(LONGEST_LISTING), lent_words(LONGEST_PLACING));
    bytes[..length].copy_from_slice(&answer.listing);
    words[..answer.placing.len()].copy_from_slice(&answer.placing);
    let (bytes, words) = (digest(&bytes), digest_words(&words));
    format!("D {number} {line} {length} {bytes} {words}\n")
}

#[cfg(test)]
mod tests {
    use super::*;
    use crate::cases::assert_streamed;
    use crate::cases::sheets::{idle_first_day, text};
    use std::collections::BTreeSet;

    #[test]
    fn the_stream_holds_the_cases() {
        assert_streamed(&cases(), 450_000);
        for group in groups::groups() {
            assert_eq!(group_of(&group_case(&group)), group);
        }
    }

    /// Where a case asks for more, the gate program answers otherwise.
    #[test]
    fn no_case_lends_more_than_the_program_has_room_for() {
        for case in cases().iter().filter(|case| case.operation == b'H') {
            for hall in group_of(case).lent {
                assert!(hall.listing_bytes <= LONGEST_LISTING);
                assert!(hall.placing_words <= LONGEST_PLACING);
            }
        }
    }

    /// The answers of all halls of the small groups.
    fn small_answers() -> Vec<(Group, Vec<HallPlanned>)> {
        let small = |group: &Group| group.lent.iter().all(|hall| hall.sheet.len() < 600);
        let all = [groups::groups(), generated::groups()].concat();
        all.into_iter()
            .filter(small)
            .map(|group| {
                let answer = plan_halls(group.limit, group.halls, &group.lent);
                let there = match answer.number {
                    0 => group.halls as usize,
                    _ => 0,
                };
                (group, answer.halls[..there].to_vec())
            })
            .collect()
    }

    /// Each number is given to each of four halls, and halls are planned, held and refused
    /// in every combination.
    #[test]
    fn every_number_and_every_combination_is_shown() {
        let answers = small_answers();
        for number in (0..=13).filter(|&number| number != 11) {
            for hall in 0..MOST_HALLS {
                let has = |a: &HallPlanned| a.number == number;
                let shown = answers.iter().any(|(_, a)| a.get(hall).is_some_and(has));
                assert!(shown, "{number} of hall {hall}");
            }
        }
        let outcome = |a: &HallPlanned| match a.number {
            0 | 12 => a.number,
            _ => 1,
        };
        let combinations: BTreeSet<Vec<u32>> = answers
            .iter()
            .map(|(_, a)| a.iter().map(outcome).collect())
            .collect();
        // None on 14, then 3 for one hall, 9 for two, 27 for three and 81 for four.
        assert_eq!(combinations.len(), 1 + 3 + 9 + 27 + 81);
    }

    #[test]
    fn halls_are_planned_and_held_by_the_limit() {
        let (mut elsewhere, mut held_by_limit) = ([0; MOST_HALLS], [0; MOST_HALLS]);
        for (group, answers) in small_answers() {
            for (i, answer) in answers.iter().enumerate() {
                let mut lent: [Hall; MOST_HALLS] = Default::default();
                lent[0] = group.lent[i].clone();
                let alone = plan_halls(32, 1, &lent).halls[0].clone();
                elsewhere[i] += u32::from(answer.number == 0 && *answer != alone);
                held_by_limit[i] += u32::from(answer.number == 12 && alone.number == 0);
            }
        }
        assert!(elsewhere[1..].iter().all(|&n| n > 20), "{elsewhere:?}");
        assert!(held_by_limit.iter().all(|&n| n > 20), "{held_by_limit:?}");
    }

    /// Two halls that `tests/halls.rs` settles by hand; the third is not there.
    #[test]
    fn a_group_is_answered() {
        let mut lent: [Hall; MOST_HALLS] = Default::default();
        for hall in &mut lent[..3] {
            *hall = exact_hall(text(&idle_first_day()));
        }
        lent[0].placing_words -= 1;
        let group = Group {
            limit: 1,
            halls: 2,
            lent,
        };
        let kept = format!(
            "{} {}",
            digest(&lent_buffer(LONGEST_LISTING)),
            digest_words(&lent_words(LONGEST_PLACING))
        );
        let listing = b"PLAN
     2     1     2     1
     1     1     2     0
     1     3     3     2
     3     1     1     1
     0     4     0     0
";
        let mut bytes = lent_buffer(LONGEST_LISTING);
        bytes[..listing.len()].copy_from_slice(listing);
        let mut words = lent_words(LONGEST_PLACING);
        words[..96].fill(0);
        words[2] = 1;
        let planned = format!("{} {}", digest(&bytes), digest_words(&words));
        let lines = [
            "H 0 0\n".into(),
            format!("D 10 0 0 {kept}\n"),
            format!("D 0 0 130 {planned}\n"),
            format!("D 0 0 0 {kept}\n"),
            format!("D 0 0 0 {kept}\n"),
        ];
        assert_eq!(answer(&group_case(&group)), lines.concat());
        let refused = Group { limit: 0, ..group };
        let lines = ["H 14 0\n".into(), format!("D 0 0 0 {kept}\n").repeat(4)];
        assert_eq!(answer(&group_case(&refused)), lines.concat());
    }

    /// The groups of a range have four seeds each, in rising order.
    #[test]
    fn a_range_is_its_groups_one_by_one() {
        let one_by_one = [20, 24].map(|seed| answer(&seeds_case([9, 3, seed, 1])));
        assert_eq!(answer(&seeds_case([9, 3, 20, 2])), one_by_one.concat());
        let [(20, group)] = &seed_groups(&seeds_case([9, 3, 20, 1]))[..] else {
            panic!("one group");
        };
        let sheets = group.lent.iter().map(|hall| hall.sheet.clone());
        assert!(sheets.eq((20..24).map(|seed| practice_sheet(seed).text())));
        let expected = format!("S 20 {}", answered(group));
        assert_eq!(one_by_one[0], expected);
    }
}
