//! The days that document 01 names, and two more that tell the method from others.

mod written;

use reference::listing::{plan, program, PLACING_WORDS, PLAN_BUFFER};
use reference::method::{self, Plan, State};
use reference::placing::{bounds, shortfall, shown_set};
use reference::sheet::read;
use written::text;

fn planned(lines: &str) -> Plan {
    method::plan(&read(&text(lines)).expect("accepted")).expect("planned")
}

fn tanks_by_slot(plan: &Plan) -> Vec<Vec<u32>> {
    let slots = 1..=plan.counts.len() as u32;
    let tanks = |t| {
        let here = plan.feedings.iter().filter(move |f| f.slot == t);
        here.map(|f| f.tank).collect()
    };
    slots.map(tanks).collect()
}

const FIRST: &str = "4 2 2 3 / 1 1 2 2 / 2 1 4 2 / 3 2 3 1";
const FIRST_LISTING: &str = "PLAN
     9     2     4     5
     1     1     4     2
     2     1     2     0
     2     3     3     2
     2     4     4     0
     1     1     1     1
     2     1     1     2
     3     1     2     1
     3     2     3     1
     4     1     2     2
     0    16     0     0
";
const HELD: &str = "3 1 1 2 / 1 1 2 2 / 2 2 3 2";
const HELD_LISTING: &str = "HELD
    12     1     2     1
     2     0     0     0
";

#[test]
fn the_listing_of_document_01() {
    assert_eq!(program(&text(FIRST)), FIRST_LISTING.as_bytes());
    let plan = planned(FIRST);
    assert_eq!(plan.counts, [1, 1, 2, 1]);
    assert_eq!(plan.energy, 9);
}

#[test]
fn a_day_that_is_held() {
    assert_eq!(program(&text(HELD)), HELD_LISTING.as_bytes());
    let set = shown_set(&read(&text(HELD)).expect("accepted"));
    assert_eq!(set, Some(vec![false, true, false]));
}

#[test]
fn shortfalls() {
    assert_eq!(shortfall(&text(HELD), &[1, 0, 0]), (0, 0, 0));
    assert_eq!(shortfall(&text(HELD), &[1, 1, 1]), (0, 0, 1));
    assert_eq!(shortfall(&text(HELD), &[0, 1, 0]), (0, 0, 1));
    assert_eq!(shortfall(&text(HELD), &[0, 0, 0]), (0, 0, 0));
    assert_eq!(shortfall(&text(FIRST), &[0, 0, 0, 1]), (0, 0, -2));
    assert_eq!(shortfall(&text(FIRST), &[0, 0, 0]), (11, 0, 0));
    assert_eq!(shortfall(&text(FIRST), &[0, 0, 0, 0, 0]), (11, 0, 0));
    assert_eq!(shortfall(&text(FIRST), &[0, 2, 0, 0]), (11, 0, 0));
    assert_eq!(shortfall(&text("4 2 2 1"), &[9]), (6, 1, 0));
}

#[test]
fn nearest_deadline_feeding_fails_here() {
    let plan = planned("3 2 1 3 / 1 1 2 1 / 2 1 2 1 / 3 1 3 3");
    assert_eq!(tanks_by_slot(&plan), [vec![1, 3], vec![2, 3], vec![3]]);
    assert_eq!(plan.energy, 7);
}

#[test]
fn days_without_rations() {
    let plan = planned("3 1 4 0");
    assert_eq!((plan.energy, plan.starts), (0, 0));
    assert_eq!(plan.stretches[0].state, State::Off);
    let plan = planned("3 1 3 0");
    assert_eq!((plan.energy, plan.starts), (0, 0));
    assert_eq!(plan.stretches[0].state, State::Off);
}

#[test]
fn the_dearest_single_feeding() {
    assert_eq!(planned("1 1 200 1 / 1 1 1 1").energy, 201);
    assert_eq!(planned("1 1 2000 1 / 1 1 1 1").energy, 2_001);
}

#[test]
fn idle_comes_first() {
    let day = "3 1 1 1 / 1 1 3 1";
    let plan = planned(day);
    let ends: Vec<(u32, u32, State)> = plan
        .stretches
        .iter()
        .map(|s| (s.first, s.last, s.state))
        .collect();
    assert_eq!(ends, [(1, 2, State::Off), (3, 3, State::Busy)]);
    assert_eq!(plan.energy, 2);
    assert_eq!(bounds(&text(day), &[1, 1, 0], &[1, 1, 1]), (0, 0, false));
    assert_eq!(bounds(&text(day), &[0, 1, 0], &[0, 0, 1]), (0, 0, false));
    assert_eq!(bounds(&text(day), &[0, 1, 0], &[0, 9, 0]), (0, 0, true));
    let most = u32::MAX;
    assert_eq!(bounds(&text(day), &[0, 2, 0], &[most; 3]), (0, 0, false));
    assert_eq!(bounds(&text(day), &[most; 3], &[most; 3]), (0, 0, false));
    assert_eq!(bounds(&text(day), &[0; 2], &[1; 3]), (11, 0, false));
    assert_eq!(bounds(&text(day), &[0; 3], &[1; 4]), (11, 0, false));
    assert_eq!(bounds(&text(HELD), &[0; 3], &[1; 3]), (0, 0, false));
    assert_eq!(bounds(b"", &[0; 3], &[1; 3]), (1, 0, false));
}

#[test]
fn an_idle_stretch_as_long_as_the_wake_cost_is_off() {
    assert_eq!(planned("3 1 2 2 / 1 1 1 1 / 2 3 3 1").energy, 5);
    assert_eq!(planned("3 1 1 2 / 1 1 1 1 / 2 3 3 1").energy, 4);
}

#[test]
fn sizes_beyond_the_limits() {
    for (day, output) in [
        ("97 2 2 0", "HELD\n     3     1     0     0\n"),
        ("4 9 2 0", "HELD\n     4     1     0     0\n"),
        ("4 2 2001 0", "HELD\n     5     1     0     0\n"),
    ] {
        assert_eq!(program(&text(day)), output.as_bytes());
    }
    assert_eq!(program(b""), b"HELD\n     1     0     0     0\n");
}

#[test]
fn blowers_are_treated_from_the_highest_down() {
    assert_eq!(planned("2 2 1 2 / 1 1 2 1 / 2 1 2 1").counts, [1, 1]);
}

#[test]
fn feedings_are_chosen_slot_by_slot() {
    let plan = planned("3 1 1 3 / 1 2 3 1 / 2 1 3 1 / 3 1 2 1");
    assert_eq!(tanks_by_slot(&plan), [[2], [3], [1]]);
}

/// The two buffers before a call, longer than what they must be.
fn buffers() -> (Vec<u8>, Vec<u64>) {
    (vec![7; PLAN_BUFFER + 5], vec![9; PLACING_WORDS + 5])
}

#[test]
fn planning_settles_every_lent_byte_and_word() {
    let (mut listing, mut placing) = buffers();
    let answer = plan(&text(FIRST), Some(&mut listing), Some(&mut placing));
    assert_eq!(answer, (0, 0, FIRST_LISTING.len()));
    let (written, kept) = listing.split_at(FIRST_LISTING.len());
    assert_eq!(written, FIRST_LISTING.as_bytes());
    assert!(kept.iter().all(|&b| b == 7));
    // Ration 1 in slots 1 and 2, rations 2 and 3 in slot 3, ration 2 in slot 4.
    assert_eq!(placing[..4], [0b001, 0b001, 0b110, 0b010]);
    assert_eq!(placing[4..PLACING_WORDS], [0; 92]);
    assert_eq!(placing[PLACING_WORDS..], [9; 5]);

    assert_eq!(plan(&text(FIRST), None, None), (0, 0, 0));
    let (_, mut alone) = buffers();
    assert_eq!(plan(&text(FIRST), None, Some(&mut alone)), (0, 0, 0));
    assert_eq!(alone, placing);
}

#[test]
fn a_held_sheet_settles_every_lent_byte_and_word() {
    let (mut listing, mut placing) = buffers();
    let answer = plan(&text(HELD), Some(&mut listing), Some(&mut placing));
    assert_eq!(answer, (12, 0, HELD_LISTING.len()));
    let (written, kept) = listing.split_at(HELD_LISTING.len());
    assert_eq!(written, HELD_LISTING.as_bytes());
    assert!(kept.iter().all(|&b| b == 7));
    assert_eq!(placing[..PLACING_WORDS], [0; 96]);
    assert_eq!(placing[PLACING_WORDS..], [9; 5]);

    let (_, mut alone) = buffers();
    assert_eq!(plan(&text(HELD), None, Some(&mut alone)), (12, 0, 0));
    assert_eq!(alone, placing);
    assert_eq!(plan(&text(HELD), None, None), (12, 0, 0));
}

#[test]
fn a_refusal_changes_no_lent_byte_or_word() {
    let (listing, placing) = buffers();
    for (day, refusal) in [
        (text("97 2 2 0"), (3, 1, 0)),
        (text("4 2 2 1 / 1 1 2 3"), (9, 2, 0)),
        (vec![], (1, 0, 0)),
    ] {
        let (mut one, mut other) = buffers();
        assert_eq!(plan(&day, Some(&mut one), Some(&mut other)), refusal);
        // A refused sheet comes before a short buffer.
        assert_eq!(plan(&day, Some(&mut one[..3]), None), refusal);
        assert_eq!((one, other), (listing.clone(), placing.clone()));
    }
    for day in [text(FIRST), text(HELD)] {
        let (mut one, mut other) = buffers();
        let short_plan = Some(&mut one[..PLAN_BUFFER - 1]);
        assert_eq!(plan(&day, short_plan, Some(&mut other)), (10, 0, 0));
        let short_placing = Some(&mut other[..PLACING_WORDS - 1]);
        assert_eq!(plan(&day, Some(&mut one), short_placing), (10, 0, 0));
        assert_eq!(plan(&day, None, Some(&mut other[..0])), (10, 0, 0));
        assert_eq!((one, other), (listing.clone(), placing.clone()));
    }
}
