//! The twin is only worth timing if it answers as the planner must.

use plain::{plan_both, PLACING_WORDS, PLAN_BYTES};
use reference::damage::{damage_meal, damaged_sheet};
use reference::draws::Draws;
use reference::generate::{any_sheet, tight_sheet, FULL, MIDDLE, SMALL};
use reference::listing;

fn check(sheet: &[u8]) -> u32 {
    let (mut one, mut words) = (vec![7; PLAN_BYTES], vec![u64::MAX; PLACING_WORDS + 2]);
    let (mut expected, mut expected_words) = (one.clone(), words.clone());
    let answer = plan_both(sheet, &mut one, &mut words);
    let wanted = listing::plan(sheet, Some(&mut expected), Some(&mut expected_words));
    assert_eq!((answer.number, answer.line, answer.length), wanted);
    assert!(one == expected && words == expected_words);
    answer.number
}

#[test]
fn a_word_too_few_is_refused() {
    let sheet = b"     1     1     0     0\n";
    let (mut one, mut words) = (vec![7; PLAN_BYTES], vec![7; PLACING_WORDS]);
    for few in [0, PLACING_WORDS - 1] {
        assert_eq!(plan_both(sheet, &mut one, &mut words[..few]).number, 10);
    }
    assert_eq!((one, words), (vec![7; PLAN_BYTES], vec![7; PLACING_WORDS]));
}

#[test]
fn the_same_as_the_reference() {
    let draws = &mut Draws::new(3);
    let mut shown = [0; 14];
    for round in 0..400 {
        let limits = if round % 4 == 0 { MIDDLE } else { SMALL };
        let mut sheet = any_sheet(draws, limits).text();
        shown[check(&sheet) as usize] += 1;
        damage_meal(draws, &mut sheet);
        shown[check(&sheet) as usize] += 1;
        shown[check(&damaged_sheet(draws, limits)) as usize] += 1;
    }
    // Charges of the later hours.
    for _ in 0..20 {
        assert_eq!(check(&tight_sheet(draws, FULL).text()), 0);
    }
    for number in [0, 1, 2, 3, 4, 5, 6, 7, 8, 9, 12, 13] {
        assert!(shown[number] > 0, "no sheet of number {number}");
    }
}
