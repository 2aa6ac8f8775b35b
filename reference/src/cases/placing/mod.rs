//! Cases for the calls of the placing layer: `S` asks for the shortfall of the
//! marked slots, `B` whether a sound placing exists under bounds. The payload has
//! two parts, the lists and the sheet. A list of marks is as many bytes; lows and
//! highs are text, one number a line: how many lows there are, the lows, the highs.

mod generated;
mod lists;

use super::{numbers_of, text_of, Case};
use crate::placing::{bounds, shortfall};

/// All cases of this gate program.
pub fn cases() -> Vec<Case> {
    let mut cases = lists::shortfall_cases();
    cases.extend(lists::bounds_cases());
    cases.extend(generated::shortfall_cases());
    cases.extend(generated::bounds_cases());
    cases
}

/// The output expected for these cases.
pub fn output(cases: &[Case]) -> Vec<u8> {
    cases.iter().map(answer).collect::<String>().into_bytes()
}

fn answer(case: &Case) -> String {
    let (lists, sheet) = case.parts();
    match case.operation {
        b'S' => {
            let (number, line, shortfall) = shortfall(sheet, lists);
            format!("S {number} {line} {shortfall}\n")
        }
        b'B' => {
            let numbers = numbers_of(lists);
            let (lows, highs) = numbers[1..].split_at(numbers[0] as usize);
            let (number, line, yes) = bounds(sheet, lows, highs);
            format!("B {number} {line} {}\n", u32::from(yes))
        }
        other => panic!("no operation {other}"),
    }
}

fn shortfall_case(sheet: &[u8], marks: &[u8]) -> Case {
    Case::in_parts(b'S', marks, sheet)
}

fn bounds_case(sheet: &[u8], lows: &[u32], highs: &[u32]) -> Case {
    let numbers = [&[lows.len() as u32], lows, highs].concat();
    Case::in_parts(b'B', &text_of(&numbers), sheet)
}

#[cfg(test)]
mod tests {
    use super::*;
    use crate::cases::assert_streamed;
    use crate::cases::sheets::{first_day, held_day, idle_first_day, text};

    #[test]
    fn the_stream_holds_the_cases() {
        assert_streamed(&cases(), 1_200_000);
    }

    #[test]
    fn every_answer_is_shown() {
        let answers: Vec<String> = cases().iter().map(answer).collect();
        for operation in ["S", "B"] {
            for number in [0, 1, 2, 3, 4, 5, 6, 7, 8, 9, 11, 13] {
                let start = format!("{operation} {number} ");
                assert!(answers.iter().any(|a| a.starts_with(&start)), "{start}");
            }
        }
        let count = |wanted: fn(&str) -> bool| answers.iter().filter(|a| wanted(a)).count();
        assert!(count(|a| a == "B 0 0 1\n") > 200);
        assert!(count(|a| a == "B 0 0 0\n") > 200);
        assert!(count(|a| a.starts_with("S 0 0 -")) > 100);
        assert!(count(|a| a.starts_with("S 0 0 ") && !a.starts_with("S 0 0 -")) > 100);
        assert!(answers.contains(&"S 0 0 -768\n".to_string()));
        assert!(answers.contains(&"S 0 0 6048\n".to_string()));
    }

    #[test]
    fn the_starred_days_are_answered() {
        let short = |lines: &[[u32; 4]], marks| answer(&shortfall_case(&text(lines), marks));
        assert_eq!(short(&held_day(), &[1, 0, 0]), "S 0 0 0\n");
        assert_eq!(short(&held_day(), &[1, 1, 1]), "S 0 0 1\n");
        assert_eq!(short(&first_day(), &[0, 0, 0, 1]), "S 0 0 -2\n");
        let day = text(&idle_first_day());
        assert_eq!(
            answer(&bounds_case(&day, &[1, 1, 0], &[1, 1, 1])),
            "B 0 0 0\n"
        );
        assert_eq!(
            answer(&bounds_case(&day, &[0, 1, 0], &[0, 0, 1])),
            "B 0 0 0\n"
        );
    }
}
