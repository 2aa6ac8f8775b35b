//! Several meals for one tank (request 102): days settled by hand, check 13 among the
//! checks of a line, and the look-up of all lines of a tank.

mod written;

use reference::comparison::{compare, Order};
use reference::draws::Draws;
use reference::listing::{plan, program, PLACING_WORDS, PLAN_BUFFER};
use reference::placing::{bounds, shortfall};
use reference::sheet::{find, line_text, read, write, Refusal, LINE};
use written::text;

fn refusal(number: u32, line: u32) -> Result<(), Refusal> {
    Err(Refusal { number, line })
}

/// What reading a sheet comes to.
fn outcome(lines: &str) -> Result<(), Refusal> {
    read(&text(lines)).map(|_| ())
}

/// Slots 1 to 4 need a second blower once, as late as can be; the evening meal takes the
/// last slots of its window. Between them blower 1 is off, four slots being more than q.
#[test]
fn a_morning_and_an_evening_meal() {
    let listing = "PLAN
    16     3     6     7
     1     1     4     2
     1     5     8     0
     1     9    10     2
     2     1     2     0
     2     3     3     2
     2     4    10     0
     1     1     1     1
     2     1     2     1
     3     1     1     2
     3     2     2     2
     4     1     2     3
     9     1     1     1
    10     1     1     2
     0    29     0     0
";
    let day = "10 2 3 3 / 1 1 3 2 / 1 8 10 2 / 2 1 4 3";
    assert_eq!(program(&text(day)), listing.as_bytes());
}

/// One blower does. The evening meal is asked before tank 2, so it is fed in slot 6, and
/// not in 7, where tank 2 has its last chance.
#[test]
fn parts_count_within_the_meal() {
    let listing = "PLAN
     9     1     3     7
     1     1     1     0
     1     2     8     2
     2     1     8     0
     2     1     1     1
     3     1     1     2
     4     1     2     1
     5     1     2     2
     6     1     1     1
     7     1     2     3
     8     1     1     2
     0    16     0     0
";
    let day = "8 2 2 3 / 1 1 3 2 / 1 6 8 2 / 2 2 7 3";
    assert_eq!(program(&text(day)), listing.as_bytes());
}

/// The first meal and tank 6 want three feedings of the slots 1 and 2. One ration with
/// both windows could leave one of these slots to tank 6.
#[test]
fn soundness_is_read_per_meal() {
    let held =
        "HELD\n    12     2     3     2\n     1     0     0     0\n     2     0     0     0\n";
    let day = text("4 1 1 3 / 5 1 2 2 / 5 3 4 1 / 6 1 2 1");
    assert_eq!(program(&day), held.as_bytes());
    assert_eq!(shortfall(&day, &[1, 1, 0, 0]), (0, 0, 1));
    assert_eq!(shortfall(&day, &[1, 1, 1, 1]), (0, 0, 0));
    assert_eq!(bounds(&day, &[0; 4], &[1; 4]), (0, 0, false));
    let one_ration = text("4 1 1 2 / 5 1 4 3 / 6 1 2 1");
    assert!(program(&one_ration).starts_with(b"PLAN\n"));
}

#[test]
fn windows_may_touch_and_not_overlap() {
    assert_eq!(outcome("4 1 1 2 / 5 1 2 1 / 5 3 4 1"), Ok(()));
    assert_eq!(outcome("4 1 1 2 / 5 1 2 1 / 5 2 4 1"), refusal(13, 3));
    assert_eq!(outcome("4 1 1 2 / 5 1 2 1 / 6 2 4 1"), Ok(()));
    assert_eq!(outcome("4 1 1 2 / 5 3 4 1 / 5 1 2 1"), refusal(13, 3));
    let three = "9 1 2 3 / 5 1 2 1 / 5 3 5 2 / 5 7 9 3";
    assert_eq!(outcome(three), Ok(()));
    // Each window begins after the one before it, whatever the first was.
    let back = "9 1 2 3 / 5 1 2 1 / 5 6 9 2 / 5 3 5 3";
    assert_eq!(outcome(back), refusal(13, 4));
}

#[test]
fn a_tank_is_never_below_the_one_before() {
    assert_eq!(
        outcome("9 1 2 3 / 5 1 2 1 / 6 3 5 1 / 5 7 9 1"),
        refusal(7, 4)
    );
    assert_eq!(
        outcome("9 1 2 3 / 5 1 2 1 / 5 3 5 1 / 4 7 9 1"),
        refusal(7, 4)
    );
    assert_eq!(outcome("9 1 2 2 / 250000 1 2 1 / 250000 3 3 1"), Ok(()));
    assert_eq!(
        outcome("9 1 2 2 / 250001 1 2 1 / 250001 3 3 1"),
        refusal(7, 2)
    );
    assert_eq!(outcome("9 1 2 2 / 0 1 2 1 / 0 3 3 1"), refusal(7, 2));
}

#[test]
fn check_13_comes_last_on_its_line_and_before_the_next_line() {
    for (day, number, line) in [
        // 7 on a line that would also break 8 and 9; 8 and 9 with 13.
        ("4 1 1 2 / 5 1 2 1 / 4 0 2 0", 7, 3),
        ("4 1 1 2 / 5 1 2 1 / 5 0 2 1", 8, 3),
        ("4 1 1 2 / 5 1 2 1 / 5 2 5 1", 8, 3),
        ("4 1 1 2 / 5 1 2 1 / 5 2 1 1", 8, 3),
        ("4 1 1 2 / 5 1 2 1 / 5 2 4 0", 9, 3),
        ("4 1 1 2 / 5 1 2 1 / 5 2 4 4", 9, 3),
        // 13 on line 3 before any fault of line 4, and after any of line 2.
        ("4 1 1 3 / 5 1 2 1 / 5 2 4 1 / 4 1 1 1", 13, 3),
        ("4 1 1 3 / 5 1 2 1 / 5 2 4 1 / 6 0 1 1", 13, 3),
        ("4 1 1 3 / 5 1 2 1 / 5 2 4 1 / 6 1 1 0", 13, 3),
        ("4 1 1 3 / 5 1 2 1 / 5 2 3 1 / 5 3 4 1", 13, 3),
        ("4 1 1 2 / 0 1 2 1 / 0 2 4 1", 7, 2),
        ("4 1 1 2 / 5 0 2 1 / 5 2 4 1", 8, 2),
        ("4 1 1 2 / 5 1 2 3 / 5 2 4 1", 9, 2),
        // The head line comes before.
        ("97 1 1 2 / 5 1 2 1 / 5 2 4 1", 3, 1),
        ("4 1 1 3 / 5 1 2 1 / 5 2 4 1", 6, 1),
    ] {
        assert_eq!(outcome(day), refusal(number, line), "{day}");
    }
}

/// Number 13 of every call: no lent byte or word changes, and it comes before 10, 11 and 12.
#[test]
fn every_call_refuses_by_13() {
    let day = text("4 1 1 2 / 5 1 2 2 / 5 2 4 1");
    assert_eq!(program(&day), b"HELD\n    13     3     0     0\n");
    assert!(find(&day, 5).is_empty());
    assert_eq!(shortfall(&day, &[0, 0, 0, 1]), (13, 3, 0));
    assert_eq!(shortfall(&day, &[2]), (13, 3, 0));
    assert_eq!(bounds(&day, &[0; 4], &[1; 4]), (13, 3, false));
    assert_eq!(bounds(&day, &[], &[]), (13, 3, false));
    let good = text("4 1 1 1 / 5 1 2 2");
    assert_eq!(compare(&good, &day), (13, 3, Order::No));
    assert_eq!(compare(&day, b""), (13, 3, Order::No));

    let (mut listing, mut placing) = (vec![7; PLAN_BUFFER], vec![9; PLACING_WORDS]);
    for lent in [3, PLAN_BUFFER] {
        let listing = Some(&mut listing[..lent]);
        assert_eq!(plan(&day, listing, Some(&mut placing)), (13, 3, 0));
    }
    assert!(listing.iter().all(|&b| b == 7));
    assert!(placing.iter().all(|&word| word == 9));
    for lent in [0, 3 * LINE] {
        let mut buffer = vec![7; lent];
        let rations = [5, 1, 2, 2, 5, 2, 4, 1];
        assert_eq!(write(4, 1, 1, 2, &rations, &mut buffer), (13, 3, 0));
        assert_eq!(buffer, vec![7; lent]);
    }
}

#[test]
fn all_lines_of_a_tank_are_one_part() {
    let day = "9 1 1 6 / 2 1 9 1 / 5 1 2 1 / 5 3 5 1 / 5 7 9 1 / 8 1 1 1 / 8 9 9 1";
    let bytes = text(day);
    let part = |tank| find(&bytes, tank);
    assert_eq!(part(2), &bytes[LINE..2 * LINE]);
    assert_eq!(part(5), &bytes[2 * LINE..5 * LINE]);
    assert_eq!(part(8), &bytes[5 * LINE..]);
    assert_eq!(part(5).as_ptr(), bytes[2 * LINE..].as_ptr());
    for absent in [0, 1, 3, 6, 9] {
        assert!(part(absent).is_empty());
    }
    // A sheet that planning holds is looked up all the same.
    let held = text("2 1 1 3 / 5 1 1 1 / 5 2 2 1 / 6 1 1 1");
    assert_eq!(find(&held, 5), &held[LINE..3 * LINE]);
}

/// The first fault of ration lines: all faults by the text of the checks, line after
/// line, and of these the first.
fn first_fault(slots: u32, rations: &[[u32; 4]]) -> Result<(), Refusal> {
    let mut faults = Vec::new();
    for (i, &[tank, first, last, volume]) in rations.iter().enumerate() {
        let before = i.checked_sub(1).map(|before| rations[before]);
        let length = (i64::from(last) - i64::from(first) + 1).max(0);
        let falls = before.is_some_and(|before| tank < before[0]);
        let early = before.is_some_and(|before| tank == before[0] && first <= before[2]);
        for (number, is_broken) in [
            (7, tank == 0 || tank > 250_000 || falls),
            (8, first == 0 || last < first || slots < last),
            (9, volume == 0 || i64::from(volume) > length),
            (13, early),
        ] {
            if is_broken {
                faults.push((number, i as u32 + 2));
            }
        }
    }
    match faults.first() {
        Some(&(number, line)) => refusal(number, line),
        None => Ok(()),
    }
}

/// Reading and writing give the first fault.
fn check_first_fault(slots: u32, rations: &[[u32; 4]]) -> u32 {
    let n = rations.len() as u32;
    let lines = [&[[slots, 1, 1, n]], rations].concat();
    let text: Vec<u8> = lines.iter().flat_map(|&line| line_text(line)).collect();
    let expected = first_fault(slots, rations);
    assert_eq!(read(&text).map(|_| ()), expected, "{rations:?}");
    let mut buffer = vec![7; text.len()];
    let answer = write(slots, 1, 1, n, &rations.concat(), &mut buffer);
    match expected {
        Ok(()) => {
            assert_eq!(answer, (0, 0, text.len()));
            assert_eq!(buffer, text);
            0
        }
        Err(Refusal { number, line }) => {
            assert_eq!(answer, (number, line, 0), "{rations:?}");
            assert!(buffer.iter().all(|&b| b == 7));
            number
        }
    }
}

#[test]
fn the_first_fault_of_all_pairs_of_lines() {
    let mut lines = Vec::new();
    for tank in 0..=2 {
        for first in 0..=4 {
            for last in 0..=4 {
                lines.extend((0..=2).map(|volume| [tank, first, last, volume]));
            }
        }
    }
    let mut shown = [0; 14];
    for &one in &lines {
        for &other in &lines {
            shown[check_first_fault(3, &[one, other]) as usize] += 1;
        }
    }
    for number in [0, 7, 8, 9, 13] {
        assert!(shown[number] > 0, "{number}");
    }
}

#[test]
fn the_first_fault_of_longer_lists() {
    let mut draws = Draws::new(9);
    let mut shown = [0; 14];
    for _ in 0..20_000 {
        let mut slot = 0;
        let rations: Vec<[u32; 4]> = (0..draws.between(3, 6))
            .map(|i| {
                // Mostly the next meal, now and then with a number off by one.
                let first = slot + draws.between(1, 3);
                let last = first + draws.below(3);
                slot = last;
                let mut ration = [5 + i / 3, first, last, draws.between(1, last - first + 1)];
                if draws.one_in(6) {
                    let field = &mut ration[draws.index(4)];
                    *field = *field + 1 - 2 * draws.below(2);
                }
                ration
            })
            .collect();
        shown[check_first_fault(24, &rations) as usize] += 1;
    }
    for number in [0, 7, 8, 9, 13] {
        assert!(shown[number] > 200, "{number}: {}", shown[number]);
    }
}
