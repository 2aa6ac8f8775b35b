//! The words of the placing buffer (request 106): days settled by hand, and generated days
//! whose words are held to the placing of the method.

mod written;

use reference::draws::Draws;
use reference::generate::{any_sheet, full_sheet, held_sheet, FULL, MIDDLE, SMALL};
use reference::listing::{plan, PLACING_WORDS};
use reference::method;
use reference::sheet::Sheet;
use written::text;

/// A lent word before a call: each of its bytes differs from 0.
const LENT: u64 = 0x0909_0909_0909_0909;

/// The 96 words of a day that is planned, or held if the number is 12. The word after them
/// is still the lent one.
fn words_of(sheet: &[u8], number: u32) -> Vec<u64> {
    let mut placing = vec![LENT; PLACING_WORDS + 1];
    assert_eq!(plan(sheet, None, Some(&mut placing)), (number, 0, 0));
    assert_eq!(placing.pop(), Some(LENT));
    placing
}

/// The words of a day whose first slots have these and whose others have none.
fn day_words(first: &[u64]) -> Vec<u64> {
    let mut words = first.to_vec();
    words.resize(96, 0);
    words
}

/// The first day of document 01: tank 1 is fed in slots 1 and 2, tanks 2 and 3 in slot 3,
/// and tank 2 in slot 4. Tank 1 is ration 1 and so on.
#[test]
fn the_words_of_the_first_day() {
    let words = words_of(&text("4 2 2 3 / 1 1 2 2 / 2 1 4 2 / 3 2 3 1"), 0);
    assert_eq!(words, day_words(&[1, 1, 6, 2]));
}

/// Tanks 1 and 3 in slot 1, tanks 2 and 3 in slot 2, tank 3 in slot 3.
#[test]
fn the_words_of_a_day_with_two_blowers_busy() {
    let words = words_of(&text("3 2 1 3 / 1 1 2 1 / 2 1 2 1 / 3 1 3 3"), 0);
    assert_eq!(words, day_words(&[0b101, 0b110, 0b100]));
}

/// Ration lines are counted, and not tanks: a tank's second meal has a bit of its own.
#[test]
fn each_meal_has_a_bit() {
    let words = words_of(&text("4 1 1 3 / 5 1 1 1 / 5 2 3 2 / 250000 4 4 1"), 0);
    assert_eq!(words, day_words(&[0b001, 0b010, 0b010, 0b100]));
}

#[test]
fn a_day_without_rations_and_a_held_day_leave_zeros() {
    assert_eq!(words_of(&text("96 8 2000 0"), 0), [0; 96]);
    assert_eq!(words_of(&text("3 1 1 2 / 1 1 2 2 / 2 2 3 2"), 12), [0; 96]);
}

/// 64 rations, eight in each of the last eight slots: the words of these slots have a byte
/// of ones each, the last word the bit of ration 64.
#[test]
fn the_last_slot_and_the_last_ration() {
    let mut day = String::from("96 8 0 64");
    for i in 0..64 {
        let slot = 89 + i / 8;
        day += &format!(" / {} {slot} {slot} 1", i + 1);
    }
    let words = words_of(&text(&day), 0);
    assert_eq!(words[..88], [0; 88]);
    let last = [
        0x0000_0000_0000_00ff,
        0x0000_0000_0000_ff00,
        0x0000_0000_00ff_0000,
        0x0000_0000_ff00_0000,
        0x0000_00ff_0000_0000,
        0x0000_ff00_0000_0000,
        0x00ff_0000_0000_0000,
        0xff00_0000_0000_0000,
    ];
    assert_eq!(words[88..], last);
}

/// 95 words are too few for any day, however short, and none of them changes.
#[test]
fn a_word_too_few_is_refused() {
    let lent = vec![LENT; 95];
    for day in ["1 1 0 0", "3 1 1 2 / 1 1 2 2 / 2 2 3 2", "96 8 2000 0"] {
        for words in [0, 1, 12, 95] {
            let mut placing = lent.clone();
            let few = Some(&mut placing[..words]);
            assert_eq!(plan(&text(day), None, few), (10, 0, 0));
            assert_eq!(placing, lent);
        }
    }
}

/// Each bit of each word: bit i of word t is 1 if the method feeds ration i in slot t, both
/// counted from 0, and every other bit is 0. The bits of a word, from the lowest up, are the
/// feed lines of its slot. A held sheet has no bit. Says whether the sheet is planned.
fn check_words(sheet: &Sheet) -> bool {
    let Ok(planned) = method::plan(sheet) else {
        assert_eq!(words_of(&sheet.text(), 12), [0; 96], "{sheet:?}");
        return false;
    };
    let words = words_of(&sheet.text(), 0);
    let fed = |i: usize, t: usize| {
        let row = planned.placing.get(i);
        row.and_then(|row| row.get(t)).is_some_and(|&fed| fed)
    };
    let is_set = |i: usize, t: usize| words[t] / 2_u64.pow(i as u32) % 2 == 1;
    for t in 0..96 {
        for i in 0..64 {
            assert_eq!(is_set(i, t), fed(i, t), "ration {i} slot {t} {sheet:?}");
        }
        let rations = (0..64).filter(|&i| is_set(i, t));
        let tanks: Vec<u32> = rations.map(|i| sheet.rations[i].tank).collect();
        let lines = planned.feedings.iter().filter(|f| f.slot as usize == t + 1);
        assert_eq!(
            tanks,
            lines.map(|f| f.tank).collect::<Vec<_>>(),
            "{sheet:?}"
        );
    }
    true
}

#[test]
fn the_words_hold_the_placing_of_the_method() {
    let mut draws = Draws::new(106);
    let mut planned = 0;
    for (limits, count) in [(SMALL, 300), (MIDDLE, 60), (FULL, 12)] {
        for _ in 0..count {
            planned += u32::from(check_words(&any_sheet(&mut draws, limits)));
        }
        for _ in 0..count / 4 {
            assert!(!check_words(&held_sheet(&mut draws, limits)));
        }
    }
    assert!((100..300).contains(&planned), "{planned} planned");
    let full = (0..6).filter(|_| check_words(&full_sheet(&mut draws)));
    assert!(full.count() > 2);
}
