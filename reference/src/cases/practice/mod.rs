//! Cases for practice sheets (request 107): `P` calls for the seed that the payload names,
//! with a buffer as long as the argument says; `T` gives what the program writes for the
//! payload, `L` what it writes for an input as long as the argument says; `S` goes through a
//! range of seeds, and plans and explains their sheets. The payload of `S` has two numbers,
//! the first seed and how many there are, so that a few bytes stand for many sheets.

mod inputs;
mod seeds;

use super::days::planned;
use super::sheets::FIVE_COLUMN_LINE;
use super::{digest, lent_buffer, numbers_of, text_of, Case};
use crate::causes::{causes, CAUSES_BUFFER};
use crate::practice::{practice, practice_sheet, program};
use crate::sheet::{LINE, MOST_RATIONS};
use inputs::{field, odd_inputs, LONG_INPUTS};
pub use inputs::{long_input, program_inputs, OTHER_INPUTS};
pub use seeds::seeds_in;
use seeds::{ranges, CALL_SEEDS, PROGRAM_SEEDS};

/// The longest sheet that a seed makes.
const LONGEST: usize = LINE * (MOST_RATIONS as usize + 1);

/// The longest buffer that is lent: the most that the gate program has room for.
const LONGER: usize = 2_000;

/// All cases of this gate program.
pub fn cases() -> Vec<Case> {
    let mut cases = Vec::new();
    for seed in CALL_SEEDS {
        let exact = practice_sheet(seed).text().len();
        let five_columns = exact / LINE * FIVE_COLUMN_LINE;
        for length in [
            0,
            five_columns,
            exact - LINE,
            exact - 1,
            exact,
            exact + 1,
            LONGER,
        ] {
            cases.push(call_case(length, seed));
        }
    }
    for input in [program_inputs(), odd_inputs()].concat() {
        cases.push(Case::new(b'T', 0, input));
    }
    for length in LONG_INPUTS {
        cases.push(Case::new(b'L', length, []));
    }
    cases.extend(ranges().into_iter().map(seeds_case));
    cases
}

/// The cases of every seed that the program takes, which are no part of the gate.
pub fn all_seeds() -> Vec<Case> {
    vec![seeds_case([0, PROGRAM_SEEDS])]
}

/// The input of every seed that the program takes.
pub fn all_inputs() -> Vec<Vec<u8>> {
    seeds_in([0, PROGRAM_SEEDS]).map(field).collect()
}

fn call_case(length: usize, seed: u32) -> Case {
    Case::new(b'P', length as u32, text_of(&[seed]))
}

fn seeds_case(range: [u32; 2]) -> Case {
    Case::new(b'S', 0, text_of(&range))
}

/// The output expected for these cases.
pub fn output(cases: &[Case]) -> Vec<u8> {
    cases.iter().flat_map(answer).collect()
}

fn answer(case: &Case) -> Vec<u8> {
    let length = case.argument as usize;
    match case.operation {
        b'P' => called(length, &case.payload).into_bytes(),
        b'T' => program(&case.payload),
        b'L' => program(&long_input(length)),
        b'S' => seeds_in(range_of(&case.payload)).flat_map(made).collect(),
        operation => panic!("no operation {operation}"),
    }
}

/// `P number line length`, then `D` and the digest of the whole lent buffer.
fn called(length: usize, payload: &[u8]) -> String {
    let [seed] = numbers_of(payload)[..] else {
        panic!("one seed is named");
    };
    let mut buffer = lent_buffer(length);
    let (number, line, length) = practice(seed, &mut buffer);
    format!("P {number} {line} {length}\nD {}\n", digest(&buffer))
}

/// The first seed of a range, and how many there are.
pub fn range_of(payload: &[u8]) -> [u32; 2] {
    let numbers = numbers_of(payload);
    numbers.try_into().expect("two numbers name a range")
}

/// The sheet of a seed: `S seed number length` and the digest of a buffer that holds the
/// longest one; then its plan as operation `D` of the days gives it, and its causes,
/// `C number line length cut` and the digest of the listing.
fn made(seed: u32) -> Vec<u8> {
    let mut buffer = lent_buffer(LONGEST);
    let (number, _, length) = practice(seed, &mut buffer);
    let made = format!("S {seed} {number} {length} {}\n", digest(&buffer));
    let sheet = &buffer[..length];
    (made + &planned(sheet) + &explained(sheet)).into_bytes()
}

fn explained(sheet: &[u8]) -> String {
    let mut buffer = lent_buffer(CAUSES_BUFFER);
    let (number, line, length, cut) = causes(sheet, &mut buffer);
    let (cut, listing) = (u32::from(cut), digest(&buffer[..length]));
    format!("C {number} {line} {length} {cut} {listing}\n")
}

#[cfg(test)]
mod tests {
    use super::inputs::LONG_INPUT;
    use super::*;
    use crate::cases::sheets::text;
    use crate::cases::{assert_streamed, digest_words};
    use crate::causes::why;
    use crate::listing::{plan_text, PLACING_WORDS};
    use crate::method;

    #[test]
    fn the_stream_holds_the_cases() {
        assert_streamed(&cases(), 20_000);
        assert_streamed(&all_seeds(), 100);
    }

    /// Where a case asks for more, the gate program answers nothing.
    #[test]
    fn no_case_asks_for_more_than_the_program_has_room_for() {
        for case in cases() {
            let most = match case.operation {
                b'P' => LONGER,
                b'L' => LONG_INPUT as usize,
                _ => 0,
            };
            assert!(case.argument as usize <= most);
        }
    }

    #[test]
    fn the_shortest_and_the_longest_sheet_are_lent_for() {
        let lengths = CALL_SEEDS.map(|seed| practice_sheet(seed).text().len());
        assert!(lengths.contains(&LINE) && lengths.contains(&LONGEST));
    }

    #[test]
    fn all_seeds_of_the_program_are_gone_through() {
        let [case] = &all_seeds()[..] else {
            panic!("one range");
        };
        assert!(seeds_in(range_of(&case.payload)).eq(0..=99_999));
        let inputs = all_inputs();
        assert_eq!(inputs.len(), 100_000);
        assert_eq!(
            (&inputs[0][..], &inputs[99_999][..]),
            (&b"     0\n"[..], &b" 99999\n"[..])
        );
        assert!(inputs.iter().all(|input| input.len() == 7));
    }

    /// Seed 21, whose sheet `tests/practice.rs` works out by hand, and its plan and causes.
    #[test]
    fn a_seed_is_answered() {
        let sheet = text(&[[96, 5, 156, 2], [1, 90, 93, 1], [2, 96, 96, 1]]);
        assert_eq!(answer(&Case::new(b'T', 0, *b"    21\n")), sheet);
        let short = format!("P 10 0 0\nD {}\n", digest(&lent_buffer(74)));
        assert_eq!(answer(&call_case(74, 21)), short.as_bytes());
        let with_sheet = |length| {
            let mut buffer = lent_buffer(length);
            buffer[..75].copy_from_slice(&sheet);
            digest(&buffer)
        };
        let longer = format!("P 0 0 75\nD {}\n", with_sheet(76));
        assert_eq!(answer(&call_case(76, 21)), longer.as_bytes());

        let listing = plan_text(&method::plan(&practice_sheet(21)).expect("planned"));
        let mut words = [0; PLACING_WORDS];
        (words[93 - 1], words[96 - 1]) = (0b01, 0b10);
        let causes = why(&sheet);
        let lines = [
            format!("S 21 0 75 {}\n", with_sheet(1_625)),
            format!(
                "D 0 0 {} {} {}\n",
                listing.len(),
                digest(&listing),
                digest_words(&words)
            ),
            format!("C 0 0 {} 0 {}\n", causes.len(), digest(&causes)),
        ];
        let output = answer(&seeds_case([21, 1]));
        assert_eq!(output, lines.concat().into_bytes());
    }

    /// A range has three lines for each seed, in rising order.
    #[test]
    fn a_range_is_its_seeds_one_by_one() {
        let one_by_one: Vec<u8> = (20..24)
            .flat_map(|seed| answer(&seeds_case([seed, 1])))
            .collect();
        assert_eq!(answer(&seeds_case([20, 4])), one_by_one);
        assert_eq!(answer(&seeds_case([20, 0])), b"");
    }
}
