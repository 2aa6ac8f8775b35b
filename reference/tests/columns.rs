//! Six columns (request 110): fields and lines, tanks and wake costs at their limits, sheets in
//! five columns, and the lengths of sheets and of lent buffers.

mod written;

use reference::listing::{plan, program};
use reference::sheet::{
    field_text, field_value, find, line_text, read, write, Refusal, FIELD, LINE, LONGEST_SHEET,
};
use written::text;

/// What reading a sheet comes to.
fn outcome(bytes: &[u8]) -> Result<(), (u32, u32)> {
    let refused = |Refusal { number, line }| (number, line);
    read(bytes).map(|_| ()).map_err(refused)
}

#[test]
fn every_number_below_a_million_has_a_field() {
    for value in 0..1_000_000 {
        assert_eq!(field_value(&field_text(value)), Some(value));
    }
    assert_eq!(&field_text(0), b"     0");
    assert_eq!(&field_text(99_999), b" 99999");
    assert_eq!(&field_text(100_000), b"100000");
    assert_eq!(&field_text(999_999), b"999999");
}

/// All fields of these bytes: a number has one text, and any other form is faulty.
#[test]
fn a_field_is_read_only_in_the_form_that_is_written() {
    const BYTES: &[u8; 5] = b" 019x";
    let mut read = 0;
    for i in 0..5_usize.pow(FIELD as u32) {
        let column = |at: u32| BYTES[i / 5_usize.pow(at) % 5];
        let field: [u8; FIELD] = std::array::from_fn(|at| column(at as u32));
        let text = std::str::from_utf8(&field).expect("ASCII");
        let number: Option<u32> = text.trim_start_matches(' ').parse().ok();
        let expected = number.filter(|&number| field_text(number) == field);
        assert_eq!(field_value(&field), expected, "{text:?}");
        read += u32::from(expected.is_some());
    }
    // Of one digit 3, of k digits 2 × 3^(k − 1).
    assert_eq!(read, 3 + 2 * (3 + 9 + 27 + 81 + 243));
}

#[test]
fn lines_of_25_bytes() {
    assert_eq!((FIELD, LINE), (6, 25));
    assert_eq!(&line_text([4, 2, 2, 3]), b"     4     2     2     3\n");
    assert_eq!(
        &line_text([250_000, 1, 96, 7]),
        b"250000     1    96     7\n"
    );
    assert_eq!(&line_text([999_999; 4]), b"999999999999999999999999\n");
}

#[test]
fn tanks_to_250_000() {
    for (tank, expected) in [
        (1, Ok(())),
        (999, Ok(())),
        (1_000, Ok(())),
        (99_999, Ok(())),
        (100_000, Ok(())),
        (249_999, Ok(())),
        (250_000, Ok(())),
        (250_001, Err((7, 2))),
        (262_145, Err((7, 2))),
        (999_999, Err((7, 2))),
    ] {
        let sheet = text(&format!("4 1 0 1 / {tank} 1 4 2"));
        assert_eq!(outcome(&sheet), expected, "{tank}");
        let part: &[u8] = if expected.is_ok() {
            &sheet[LINE..]
        } else {
            b""
        };
        assert_eq!(find(&sheet, tank), part);
        assert_eq!(find(&sheet, tank % 100_000 + 1_000_000), b"");
        let mut buffer = vec![7; 50];
        let (number, line, length) = write(4, 1, 0, 1, &[tank, 1, 4, 2], &mut buffer);
        assert_eq!((number, line), expected.err().unwrap_or((0, 0)));
        let written = if expected.is_ok() {
            &sheet[..]
        } else {
            &[7; 50]
        };
        assert_eq!(buffer, written);
        assert_eq!(length, part.len() * 2);
    }
    // Above one that has a digit less, and below one that has a digit more.
    assert_eq!(
        outcome(&text("4 1 0 2 / 99999 1 1 1 / 100000 1 1 1")),
        Ok(())
    );
    assert_eq!(
        outcome(&text("4 1 0 2 / 100000 1 1 1 / 99999 1 1 1")),
        Err((7, 3))
    );
}

#[test]
fn wake_costs_to_2_000() {
    for wake in [200, 201, 999, 1_000, 1_999, 2_000] {
        assert_eq!(outcome(&text(&format!("4 1 {wake} 0"))), Ok(()));
    }
    for wake in [2_001, 2_002, 12_000, 102_000, 999_999] {
        assert_eq!(outcome(&text(&format!("4 1 {wake} 0"))), Err((5, 1)));
        assert_eq!(write(4, 1, wake, 0, &[], &mut [7; 25]), (5, 1, 0));
    }
}

/// Each is a fault of the line's form, though it has four numbers and a closing byte.
#[test]
fn seven_digits_and_five_columns() {
    for line in [
        // Seven digits take a column of the field after or before.
        b"1000000     1     1    1\n",
        b"     11000000    1     1\n",
        b"    11000000     1     1\n",
        b"     1     1    11000000\n",
        // Five columns, filled up to 25 bytes.
        b"    1    1    1    1    \n",
        b"        1    1    1    1\n",
        // Seven columns for one number, five for another.
        b"      1     1     1    1\n",
        b"    1      1     1     1\n",
    ] {
        assert_eq!(line.len(), 25);
        let faulty = [&text("4 1 0 1")[..], line].concat();
        assert_eq!(outcome(&faulty), Err((2, 2)), "{line:?}");
    }
}

/// Whatever its lines say, a sheet in five columns is refused: by its length or, where 25 lines
/// are as long as 21 of six columns, because the first line does not end where it must.
#[test]
fn sheets_in_five_columns_are_refused() {
    let head = |n: usize| format!("   96    8    1{n:>5}\n");
    for n in 0..=64 {
        let ration = |i: usize| format!("{i:>5}{i:>5}{i:>5}    1\n");
        let rations: String = (1..=n).map(ration).collect();
        let sheet = (head(n) + &rations).into_bytes();
        assert_eq!(sheet.len(), 21 * (n + 1));
        let expected = if n == 24 || n == 49 { (2, 1) } else { (1, 0) };
        assert_eq!(outcome(&sheet), Err(expected), "{n}");
        let (number, line) = expected;
        let refusal = text(&format!("{number} {line} 0 0"));
        assert_eq!(program(&sheet), [b"HELD\n", &refusal[..]].concat());
    }
}

/// Every length: that of whole lines of 25 bytes passes check 1, up to 65,520, which is none.
#[test]
fn lengths_of_sheets() {
    let line = b"     1     1     0     0\n";
    let bytes = line.repeat(2_630);
    for length in (0..200).chain(65_400..65_600) {
        let passes = (25..=65_520).contains(&length) && length % 25 == 0;
        let expected = match length {
            25 => Ok(()),
            _ if passes => Err((6, 1)),
            _ => Err((1, 0)),
        };
        assert_eq!(outcome(&bytes[..length]), expected, "{length}");
    }
    assert_eq!(LONGEST_SHEET / LINE * LINE, 65_500);
}

/// 25 bytes for each line, and not 21.
#[test]
fn a_written_sheet_needs_25_bytes_a_line() {
    for n in 0..=64 {
        let flat: Vec<u32> = (1..=n).flat_map(|i| [3_000 * i, i, i, 1]).collect();
        let exact = 25 * (n as usize + 1);
        for length in [0, 21 * (n as usize + 1), exact - 1, exact, exact + 9] {
            let mut buffer = vec![7; length];
            let expected = if length < exact {
                (10, 0, 0)
            } else {
                (0, 0, exact)
            };
            assert_eq!(write(96, 8, 2_000, n, &flat, &mut buffer), expected);
            assert!(buffer[expected.2..].iter().all(|&b| b == 7));
            if expected.0 == 0 {
                assert_eq!(outcome(&buffer[..exact]), Ok(()));
            }
        }
    }
}

/// Three energy units in hour 0 and two starts at 2,000 each: 72,054 tenths of a cent. A tank of
/// six digits stands at the blower's column without a blank.
#[test]
fn a_listing_with_wide_tanks() {
    let listing = "PLAN
  4003     2     3     3
     1     1     2     2
     2     1     1     2
     2     2     2     0
     1     1 99999     1
     1     2250000     1
     2     1250000     2
    72     5     0     0
";
    let day = text("2 2 2000 2 / 99999 1 1 1 / 250000 1 2 2");
    assert_eq!(program(&day), listing.as_bytes());
    let mut lent = vec![7; 38_455];
    assert_eq!(plan(&day, Some(&mut lent), None), (0, 0, 205));
    assert_eq!(lent[..205], *listing.as_bytes());
    for short in [32_303, 38_430, 38_454] {
        let mut lent = vec![7; short];
        assert_eq!(plan(&day, Some(&mut lent), None), (10, 0, 0));
        assert_eq!(lent, vec![7; short]);
    }
}
