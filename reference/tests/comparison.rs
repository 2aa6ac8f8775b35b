//! The order of plans (request 109): days settled by hand, all small plans, and what the
//! listings of generated sheets show of it.

mod written;

use reference::comparison::{compare, order_of_plans, Order, Tanks};
use reference::draws::Draws;
use reference::generate::{any_sheet, SMALL};
use reference::listing::program;
use reference::method;
use reference::pairs::pair;
use reference::sheet::{field_value, read, FIELD, LINE};
use written::text;

fn order(one: &str, other: &str) -> Order {
    let (number, line, order) = compare(&text(one), &text(other));
    assert_eq!((number, line), (0, 0), "{one}; {other}");
    order
}

fn is_before(one: &str, other: &str) {
    assert_eq!(order(one, other), Order::Before, "{one}; {other}");
    assert_eq!(order(other, one), Order::After, "{other}; {one}");
}

fn are_same(sheets: &[&str]) {
    for one in sheets {
        for other in sheets {
            assert_eq!(order(one, other), Order::Same, "{one}; {other}");
        }
    }
}

/// The first sheet of document 01: tank 1 in slots 1 and 2, tanks 2 and 3 in slot 3, tank 2
/// in slot 4.
const FIRST: &str = "4 2 2 3 / 1 1 2 2 / 2 1 4 2 / 3 2 3 1";
const HELD: &str = "3 1 1 2 / 1 1 2 2 / 2 2 3 2";

#[test]
fn the_order_has_the_numbers_of_the_answer() {
    use Order::{After, Before, No, Same};
    assert_eq!([No, Same, Before, After].map(|o| o as u32), [0, 1, 2, 3]);
}

#[test]
fn the_same_plan_from_different_sheets() {
    are_same(&[
        FIRST,
        "4 8 2 3 / 1 1 2 2 / 2 1 4 2 / 3 2 3 1",
        "4 2 2000 3 / 1 1 2 2 / 2 1 4 2 / 3 2 3 1",
        // Windows without spare slots, and a meal for each feeding of tank 2.
        "4 2 2 3 / 1 1 2 2 / 2 3 4 2 / 3 3 3 1",
        "4 2 2 4 / 1 1 2 2 / 2 3 3 1 / 2 4 4 1 / 3 3 3 1",
    ]);
    // Tank 5 in slots 3 to 5: idle as long as can be, then busy as long as can be. The volumes
    // of its meals differ.
    are_same(&[
        "6 1 0 2 / 5 1 3 1 / 5 4 6 2",
        "6 1 0 2 / 5 1 4 2 / 5 5 6 1",
        "6 1 0 1 / 5 3 5 3",
    ]);
    are_same(&["96 1 0 0", "96 8 2000 0"]);
}

/// The complaint: the counts agree in every slot, and different tanks are fed.
#[test]
fn counts_that_agree_do_not_make_the_same_plan() {
    is_before(FIRST, "4 2 2 3 / 7 1 2 2 / 8 1 4 2 / 9 2 3 1");
    // Nor do the same tanks, each fed as often.
    is_before("2 1 0 2 / 4 1 1 1 / 7 2 2 1", "2 1 0 2 / 4 2 2 1 / 7 1 1 1");
}

#[test]
fn plans_that_differ_in_one_slot() {
    let day = "3 1 0 3 / 4 1 1 1 / 7 2 2 1 / 9 3 3 1";
    is_before(day, "3 1 0 3 / 5 1 1 1 / 7 2 2 1 / 9 3 3 1");
    is_before(day, "3 1 0 3 / 4 1 1 1 / 8 2 2 1 / 9 3 3 1");
    // As numbers, and not as text.
    is_before(day, "3 1 0 3 / 4 1 1 1 / 7 2 2 1 / 10 3 3 1");
    is_before("1 1 0 1 / 99 1 1 1", "1 1 0 1 / 100 1 1 1");
    is_before("1 1 0 1 / 99999 1 1 1", "1 1 0 1 / 100000 1 1 1");
    is_before("1 1 0 1 / 5 1 1 1", "1 1 0 1 / 100004 1 1 1");
    is_before("1 1 0 1 / 249999 1 1 1", "1 1 0 1 / 250000 1 1 1");
    // In the last slot of the longest day.
    is_before(
        "96 1 0 2 / 4 1 95 95 / 7 96 96 1",
        "96 1 0 2 / 4 1 95 95 / 8 96 96 1",
    );
}

#[test]
fn the_first_slot_that_differs_decides() {
    is_before("2 1 0 2 / 4 1 1 1 / 9 2 2 1", "2 1 0 2 / 4 2 2 1 / 7 1 1 1");
    is_before(
        "3 2 0 3 / 4 1 2 2 / 7 3 3 1 / 9 3 3 1",
        "3 2 0 3 / 4 1 2 2 / 6 2 2 1 / 7 3 3 1",
    );
}

#[test]
fn the_smaller_d_comes_first() {
    is_before("3 1 1 0", "4 1 1 0");
    is_before("3 1 0 1 / 4 1 1 1", "4 1 0 1 / 4 1 1 1");
    is_before("95 1 0 1 / 4 1 95 95", "96 1 0 1 / 4 1 95 95");
    // Though its lists are greater.
    is_before("1 1 0 1 / 250000 1 1 1", "2 1 0 1 / 1 1 1 1");
    is_before("1 2 0 2 / 4 1 1 1 / 7 1 1 1", "96 1 0 0");
}

#[test]
fn a_list_that_ends_first_is_smaller() {
    is_before("1 1 0 0", "1 1 0 1 / 1 1 1 1");
    is_before("1 2 0 1 / 4 1 1 1", "1 2 0 2 / 4 1 1 1 / 7 1 1 1");
    is_before("2 2 0 2 / 4 1 2 2 / 7 1 1 1", "2 2 0 2 / 4 1 2 2 / 7 1 2 2");
}

#[test]
fn a_number_decides_before_a_length() {
    is_before("1 2 0 2 / 4 1 1 1 / 7 1 1 1", "1 2 0 1 / 5 1 1 1");
    is_before(
        "1 3 0 3 / 4 1 1 1 / 7 1 1 1 / 9 1 1 1",
        "1 3 0 2 / 4 1 1 1 / 9 1 1 1",
    );
}

/// A tank counts by its number, wherever its line stands.
#[test]
fn tanks_are_compared_and_not_lines() {
    // Tank 7 is fed first, on one sheet from the second ration line, on the other from the
    // first.
    is_before("2 1 0 2 / 4 2 2 1 / 7 1 1 1", "2 1 0 2 / 7 1 1 1 / 9 2 2 1");
    are_same(&[
        "3 1 0 3 / 4 1 1 1 / 4 2 2 1 / 7 3 3 1",
        "3 1 0 2 / 4 1 2 2 / 7 3 3 1",
    ]);
}

/// Sheets with the number and line of their refusal, and sheets that have a plan.
#[test]
fn the_first_refusal_of_the_first_sheet_is_the_answer() {
    let sheets = [
        (text(FIRST), None),
        (text("4 1 0 0"), None),
        (text(HELD), Some((12, 0))),
        (text("1 1 0 2 / 4 1 1 1 / 7 1 1 1"), Some((12, 0))),
        (vec![], Some((1, 0))),
        (text(FIRST)[1..].to_vec(), Some((1, 0))),
        (b"000000     1     0     0\n".to_vec(), Some((2, 1))),
        (text("97 1 0 0"), Some((3, 1))),
        (text("4 9 0 0"), Some((4, 1))),
        (text("4 1 2001 0"), Some((5, 1))),
        (text("4 1 0 1"), Some((6, 1))),
        (text("4 1 0 2 / 7 1 1 1 / 4 2 2 1"), Some((7, 3))),
        (text("4 1 0 1 / 4 1 5 1"), Some((8, 2))),
        (text("4 2 2 1 / 1 1 2 3"), Some((9, 2))),
        (text("4 1 0 2 / 4 1 2 1 / 4 2 3 1"), Some((13, 3))),
    ];
    for (first, one) in &sheets {
        for (second, other) in &sheets {
            let (number, line, order) = compare(first, second);
            let expected = one.or(*other);
            assert_eq!((number, line), expected.unwrap_or((0, 0)));
            assert_eq!(order == Order::No, expected.is_some());
        }
    }
}

/// Every plan of one or two slots with some of three tanks.
fn small_plans() -> Vec<Tanks> {
    let mut lists = vec![vec![]];
    for tank in 1..=3 {
        let longer = lists.iter().map(|list| [&list[..], &[tank]].concat());
        lists.extend(longer.collect::<Vec<_>>());
    }
    let mut plans: Vec<Tanks> = lists.iter().map(|list| vec![list.clone()]).collect();
    for first in &lists {
        plans.extend(
            lists
                .iter()
                .map(|second| vec![first.clone(), second.clone()]),
        );
    }
    plans
}

#[test]
fn the_order_is_total() {
    let plans = small_plans();
    assert_eq!(plans.len(), 8 + 64);
    for a in &plans {
        for b in &plans {
            let order = order_of_plans(a, b);
            // Rust's own order of lists is number by number too, and a list that ends first is
            // smaller.
            let expected = match (a.len(), a).cmp(&(b.len(), b)) {
                std::cmp::Ordering::Less => Order::Before,
                std::cmp::Ordering::Equal => Order::Same,
                std::cmp::Ordering::Greater => Order::After,
            };
            assert_eq!(order, expected);
            assert_eq!(order == Order::Same, a == b);
            assert_eq!(order == Order::Before, order_of_plans(b, a) == Order::After);
            for c in plans.iter().filter(|_| order == Order::Before) {
                if order_of_plans(b, c) == Order::Before {
                    assert_eq!(order_of_plans(a, c), Order::Before);
                }
            }
        }
    }
}

/// Slot and tank of each feed line of a listing, and D.
fn feed_lines(bytes: &[u8]) -> (u32, Vec<[u32; 2]>) {
    let sheet = read(bytes).expect("accepted");
    let listing = program(bytes);
    let line = |line: &[u8]| -> Vec<u32> {
        let fields = line[..LINE - 1].chunks(FIELD);
        fields
            .map(|field| field_value(field).expect("a number"))
            .collect()
    };
    let lines: Vec<Vec<u32>> = listing[b"PLAN\n".len()..].chunks(LINE).map(line).collect();
    let (stretches, feedings) = (lines[0][2] as usize, lines[0][3] as usize);
    let feed_lines = &lines[1 + stretches..1 + stretches + feedings];
    (
        sheet.slots,
        feed_lines.iter().map(|line| [line[0], line[2]]).collect(),
    )
}

/// Two plans are the same exactly when D and the slots and tanks of the feed lines agree, and
/// then the counts agree.
#[test]
fn the_listings_show_which_plans_are_the_same() {
    let mut draws = Draws::new(10);
    let (mut same, mut other_tanks) = (0, 0);
    for _ in 0..600 {
        let [one, other] = pair(&mut draws, |d| any_sheet(d, SMALL));
        let (number, _, order) = compare(&one, &other);
        if number != 0 {
            continue;
        }
        let is_same = feed_lines(&one) == feed_lines(&other);
        assert_eq!(order == Order::Same, is_same);
        let counts = [one, other].map(|bytes| method::counts(&read(&bytes).expect("accepted")));
        assert!(!is_same || counts[0] == counts[1]);
        same += u32::from(is_same);
        other_tanks += u32::from(!is_same && counts[0] == counts[1]);
    }
    assert!(same > 80, "{same} the same");
    assert!(
        other_tanks > 40,
        "{other_tanks} with the same counts and other tanks"
    );
}
