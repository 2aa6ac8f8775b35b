//! Cases for reading, writing and looking up: `R` reads the payload and writes the
//! values back, `F` looks up a tank in a sheet, the payload's two parts, `W` writes the
//! values listed in the payload into a lent buffer as long as the argument says.

mod calls;
mod finds;
mod forms;
mod meals;
mod values;

use super::sheets::text;
use super::{digest, lent_buffer, numbers_of, text_of, Case};
use crate::sheet::{find, read, write};

/// All cases of this gate program.
pub fn cases() -> Vec<Case> {
    let sheets = [values::value_sheets(), meals::meal_sheets()].concat();
    let mut cases: Vec<Case> = sheets.iter().map(|lines| read_case(text(lines))).collect();
    cases.extend(forms::length_cases());
    cases.extend(forms::byte_cases());
    cases.extend(forms::field_cases());
    cases.extend(forms::column_cases());
    cases.extend(forms::form_fault_cases());
    cases.extend(finds::find_cases());
    cases.extend(calls::write_cases());
    cases.extend(calls::generated_cases());
    cases
}

/// The output expected for these cases.
pub fn output(cases: &[Case]) -> Vec<u8> {
    cases.iter().flat_map(answer).collect()
}

fn answer(case: &Case) -> Vec<u8> {
    match case.operation {
        b'R' => answer_read(&case.payload),
        b'F' => {
            let (tank, sheet) = case.parts();
            answer_find(sheet, numbers_of(tank)[0])
        }
        b'W' => answer_write(&case.payload, case.argument as usize),
        other => panic!("no operation {other}"),
    }
}

/// `R number line` and the values of an accepted sheet, then `W 0 0 length same`
/// for the sheet written back.
fn answer_read(bytes: &[u8]) -> Vec<u8> {
    let sheet = match read(bytes) {
        Ok(sheet) => sheet,
        Err(refusal) => return format!("R {} {}\n", refusal.number, refusal.line).into_bytes(),
    };
    let n = sheet.rations.len() as u32;
    let flat = sheet.flat_rations();
    let mut values = vec![0, 0, sheet.slots, sheet.blowers, sheet.wake, n];
    values.extend(&flat);
    let words: Vec<String> = values.iter().map(u32::to_string).collect();

    let mut buffer = lent_buffer(bytes.len());
    let (number, line, length) = write(
        sheet.slots,
        sheet.blowers,
        sheet.wake,
        n,
        &flat,
        &mut buffer,
    );
    let same = u32::from(buffer == bytes);
    format!("R {}\nW {number} {line} {length} {same}\n", words.join(" ")).into_bytes()
}

/// `F length` and the bytes of the part.
fn answer_find(bytes: &[u8], tank: u32) -> Vec<u8> {
    let part = find(bytes, tank);
    let mut output = format!("F {}\n", part.len()).into_bytes();
    output.extend(part);
    output
}

/// `W number line length`, then `D` and the digest of the whole lent buffer.
fn answer_write(numbers: &[u8], buffer_length: usize) -> Vec<u8> {
    let values = numbers_of(numbers);
    let mut buffer = lent_buffer(buffer_length);
    let (number, line, length) = write(
        values[0],
        values[1],
        values[2],
        values[3],
        &values[4..],
        &mut buffer,
    );
    format!("W {number} {line} {length}\nD {}\n", digest(&buffer)).into_bytes()
}

fn read_case(payload: impl Into<Vec<u8>>) -> Case {
    Case::new(b'R', 0, payload)
}

fn find_case(tank: u32, sheet: impl Into<Vec<u8>>) -> Case {
    Case::in_parts(b'F', &text_of(&[tank]), &sheet.into())
}

fn write_case(buffer_length: usize, numbers: &[u32]) -> Case {
    Case::new(b'W', buffer_length as u32, text_of(numbers))
}

#[cfg(test)]
mod tests {
    use super::*;
    use crate::cases::assert_streamed;
    use crate::cases::meals::touching_day;
    use crate::cases::sheets::{first_day, with, Lines};
    use crate::sheet::LINE;

    fn answer_text(case: Case) -> String {
        String::from_utf8(output(&[case])).expect("ASCII")
    }

    #[test]
    fn the_stream_holds_the_cases() {
        assert_streamed(&cases(), 1_500_000);
    }

    #[test]
    fn every_accepted_sheet_keeps_its_bytes() {
        for case in cases().into_iter().filter(|c| c.operation == b'R') {
            let answer = answer_text(case.clone());
            match answer.lines().nth(1) {
                None => assert!(!answer.starts_with("R 0")),
                Some(line) => assert_eq!(line, format!("W 0 0 {} 1", case.payload.len())),
            }
        }
    }

    /// By their length or form, but for seven digits of which the field before takes the first
    /// and the others are a number.
    #[test]
    fn other_columns_are_refused() {
        let answers: Vec<String> = forms::column_cases().into_iter().map(answer_text).collect();
        assert!(!answers.iter().any(|a| a.starts_with("R 0")));
        let refused = ["R 1 0\n", "R 2 1\n", "R 2 3\n", "R 2 4\n", "F 0\n"];
        let others = answers.iter().filter(|a| !refused.contains(&a.as_str()));
        assert_eq!(others.count(), 9);
        for answer in refused {
            assert!(answers.iter().any(|a| a == answer), "{answer}");
        }
    }

    #[test]
    fn every_refusal_is_shown() {
        let answers: Vec<String> = cases().into_iter().map(answer_text).collect();
        for number in [0, 1, 2, 3, 4, 5, 6, 7, 8, 9, 13] {
            let shown = |a: &String| a.starts_with(&format!("R {number} "));
            assert!(answers.iter().any(shown), "read {number}");
        }
        for number in [0, 3, 4, 5, 6, 7, 8, 9, 10, 13] {
            let shown = |a: &String| a.starts_with(&format!("W {number} "));
            assert!(answers.iter().any(shown), "write {number}");
        }
        for length in [0, LINE, 2 * LINE, 3 * LINE, 64 * LINE] {
            let shown = |a: &String| a.starts_with(&format!("F {length}\n"));
            assert!(answers.iter().any(shown), "find {length}");
        }
    }

    #[test]
    fn the_first_day_is_answered() {
        let day = first_day();
        assert_eq!(
            answer_text(read_case(text(&day))),
            "R 0 0 4 2 2 3 1 1 2 2 2 1 4 2 3 2 3 1\nW 0 0 100 1\n"
        );
        assert_eq!(
            answer_text(find_case(2, text(&day))),
            "F 25\n     2     1     4     2\n"
        );
        assert_eq!(answer_text(find_case(4, text(&day))), "F 0\n");
        assert!(answer_text(write_case(99, &day.concat())).starts_with("W 10 0 0\n"));
        assert!(answer_text(write_case(100, &day.concat())).starts_with("W 0 0 100\n"));
    }

    #[test]
    fn the_order_of_checks_shows() {
        let day = first_day();
        let refusal = |lines: &Lines| answer_text(read_case(text(lines)));
        let mut two_and_three = text(&with(day.clone(), 0, 0, 97));
        two_and_three[3 * LINE] = b'x';
        assert_eq!(answer_text(read_case(two_and_three)), "R 2 4\n");
        assert_eq!(
            refusal(&with(with(day.clone(), 0, 3, 4), 1, 0, 0)),
            "R 6 1\n"
        );
        assert_eq!(
            refusal(&with(with(day.clone(), 1, 3, 0), 2, 0, 0)),
            "R 9 2\n"
        );
        assert_eq!(
            refusal(&with(with(day.clone(), 2, 3, 0), 2, 1, 0)),
            "R 8 3\n"
        );
        assert_eq!(refusal(&with(with(day, 3, 0, 1), 3, 1, 0)), "R 7 4\n");
    }

    #[test]
    fn meals_are_answered() {
        let day = touching_day();
        let refusal = |lines: &Lines| answer_text(read_case(text(lines)));
        assert_eq!(
            refusal(&day),
            "R 0 0 4 2 2 3 5 1 2 1 5 3 4 1 6 1 4 2\nW 0 0 100 1\n"
        );
        assert_eq!(
            answer_text(find_case(5, text(&day))),
            "F 50\n     5     1     2     1\n     5     3     4     1\n"
        );
        let overlapping = with(day, 2, 1, 2);
        assert_eq!(refusal(&overlapping), "R 13 3\n");
        assert!(answer_text(write_case(99, &overlapping.concat())).starts_with("W 13 3 0\n"));
        assert_eq!(answer_text(find_case(6, text(&overlapping))), "F 0\n");
        // 8 and 9 come before it on its line, a later line's 7 after it.
        assert_eq!(refusal(&with(overlapping.clone(), 2, 2, 5)), "R 8 3\n");
        assert_eq!(refusal(&with(overlapping.clone(), 2, 3, 0)), "R 9 3\n");
        assert_eq!(refusal(&with(overlapping, 3, 0, 4)), "R 13 3\n");
    }
}
