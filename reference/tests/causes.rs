//! A cause for every stretch (request 105): days settled by hand, long listings and their
//! cut, and the checks of the call.

mod written;

use reference::cases::causes::{long_day, LongDay};
use reference::causes::{causes, entries, listing, why, Cause, Entry, CAUSES_BUFFER};
use reference::damage::damaged_sheet;
use reference::draws::Draws;
use reference::generate::{any_sheet, MIDDLE};
use reference::listing::program;
use reference::placing::shown_set;
use reference::sheet::{line_text, read, LINE};
use written::text;

/// A listing from its entries: the entry's line, a colon and the slots of its set.
fn entry_lines(entries: &[&str]) -> Vec<u8> {
    let mut listing = Vec::new();
    for entry in entries {
        let (line, slots) = entry.split_once(':').expect("a line and its slots");
        listing.extend(text(line));
        for slot in slots.split_whitespace() {
            listing.extend(text(&format!("{slot} 0 0 0")));
        }
    }
    listing
}

/// What the call answers with this much lent, and the bytes it wrote; the others keep
/// their values.
fn called(sheet: &[u8], lent: usize) -> ((u32, u32, usize, bool), Vec<u8>) {
    let mut buffer = vec![7; lent];
    let answer = causes(sheet, &mut buffer);
    let (written, kept) = buffer.split_at(answer.2);
    assert!(kept.iter().all(|&b| b == 7));
    (answer, written.to_vec())
}

/// The call and the program give these entries.
fn check(sheet: &str, entries: &[&str]) {
    let expected = entry_lines(entries);
    let (answer, written) = called(&text(sheet), CAUSES_BUFFER);
    assert_eq!(
        String::from_utf8_lossy(&written),
        String::from_utf8_lossy(&expected)
    );
    assert_eq!(answer, (0, 0, expected.len(), false));
    assert_eq!(why(&text(sheet)), expected);
}

/// Counts 1, 1, 2, 1.
///
/// Blower 2 is idle in 1 and 2. Idle in 3 too, the highs were 1, 1, 1, 2, and {1, 2, 3}
/// has forced 2 + 1 + 1, one more than 3; no other set has more than its highs, all slots
/// having 5 against 5. It is busy in 3. Busy in 4 too, the lows were 0, 0, 2, 2, and only
/// ration 2 may be fed in 4: {4} and {3, 4} have an excess of 1. Then it is idle to the end.
///
/// Blower 1 is busy from slot 1. Idle there, the highs were 0, 1, 2, 1: {1}, {1, 2},
/// {1, 2, 3} and the whole day have a shortfall of 1. It is busy to the end.
#[test]
fn the_first_listing() {
    check(
        "4 2 2 3 / 1 1 2 2 / 2 1 4 2 / 3 2 3 1",
        &["2 2 1 3: 1 2 3", "2 3 2 1: 4", "1 0 1 1: 1"],
    );
}

/// Blower 2 cannot be idle, since two feedings are forced into slot 1 and one would fit.
/// Slot 1 then has low 2. Blower 1 idle there would set its high to 0: that is a shortfall
/// of 2 as well, but a low above a high comes first.
#[test]
fn a_low_above_a_high_comes_first() {
    let day = "1 2 1 2 / 1 1 1 1 / 2 1 1 1";
    check(day, &["2 0 1 1: 1", "1 0 3 1: 1"]);
}

/// Counts 2, 2, 0.
///
/// Blower 2 is busy in 1, where two feedings are forced against a high of 1, and in 2.
/// Busy in 3 too, the lows were 2, 2, 2: ration 3 is all that {3} can have, an excess of
/// 1; rations 3 and 4 are all that {2, 3} can have, an excess of 2, and no set has more
/// but with slot 1, which adds as much as its two rations can have.
///
/// Blower 1 meets the low of 2 in slot 1. Busy in 3 too, the lows were 2, 2, 1: {2, 3} has
/// an excess of 1, and {3} alone none.
#[test]
fn a_set_that_goes_back_before_the_stretch_s_next_slot() {
    check(
        "3 2 0 4 / 1 1 1 1 / 2 1 1 1 / 3 2 3 1 / 4 2 2 1",
        &["2 0 1 1: 1", "2 2 2 2: 2 3", "1 0 3 1: 1", "1 2 2 2: 2 3"],
    );
}

/// Every blower is idle all day: no stretch ends before the last slot.
#[test]
fn a_day_without_rations_has_no_entry() {
    check("3 1 4 0", &[]);
    check("96 8 2000 0", &[]);
    check("1 1 0 0", &[]);
}

/// Idle in all three slots, the one feeding that the whole day forces has no slot; any two
/// slots force none.
#[test]
fn a_set_that_is_the_whole_day() {
    check("3 1 1 1 / 1 1 3 1", &["1 2 1 3: 1 2 3"]);
}

/// Counts 1, 0, 1: one slot each decides, {2} since nothing can be fed there.
#[test]
fn stretches_of_one_slot() {
    check(
        "3 1 2 2 / 1 1 1 1 / 2 3 3 1",
        &["1 0 1 1: 1", "1 1 2 1: 2", "1 2 1 1: 3"],
    );
}

/// Counts 2, 2, 1. With highs 1, 2, 2 the whole day has forced 5 against 5, but {1, 2} has
/// 1 + 1 + 2 against 3. With lows 2, 2, 2 slot 3 can have ration 3 alone.
#[test]
fn a_shortfall_that_the_whole_day_does_not_have() {
    check(
        "3 2 1 3 / 1 1 2 1 / 2 1 2 1 / 3 1 3 3",
        &["2 0 1 2: 1 2", "2 2 2 1: 3", "1 0 3 1: 1"],
    );
}

/// Two meals of a tank, each in one of its two slots: the first cannot wait beyond slot 2,
/// the second is all that {3, 4} can have.
#[test]
fn meals_are_rations_of_their_own() {
    check(
        "4 1 1 2 / 5 1 2 1 / 5 3 4 1",
        &["1 1 1 2: 1 2", "1 3 2 2: 3 4"],
    );
}

/// Counts 1, 1, 0, 1, 0. Idle in 1, ration 1 has no slot. Busy in 3 after 1 and 2, {2, 3}
/// has ration 2 alone: an excess of 1. Idle in 4, ration 3 has no slot. Busy in 5, ration 2
/// is again all that {2, 5} can have.
#[test]
fn a_set_with_slots_between_that_do_not_belong_to_it() {
    check(
        "5 1 1 3 / 1 1 1 1 / 2 1 5 1 / 3 4 4 1",
        &["1 0 1 1: 1", "1 2 2 2: 2 3", "1 3 1 1: 4", "1 4 2 2: 2 5"],
    );
}

/// The entries of a long day. All blowers are busy in slot 1 and then with the rations of
/// the whole day, up to slot v + 1. From there on these have nothing left for a slot
/// without a ration of its own: busy in one more, this slot and the v slots that they feed
/// ask for more than they have. A blower busy in a slot of its own was idle before as long
/// as it could be: the highest by a shortfall, lower ones where they meet its low. A late
/// ration leaves blower 1 idle until the last slot of its window, by a shortfall of all of it.
fn long_day_entries(([blowers, v, stops, last], late): LongDay) -> Vec<Entry> {
    let mut entries = Vec::new();
    for blower in (1..=blowers).rev() {
        let mut add = |busy, last, cause, slots| {
            entries.push(Entry {
                blower,
                busy,
                last,
                cause,
                slots,
            })
        };
        let busy_end = |end| (2..=v + 1).chain([end + 1]).collect();
        let idle_cause = |rations| {
            if blower == rations {
                Cause::Shortfall
            } else {
                Cause::LowAboveHigh
            }
        };
        add(false, 0, idle_cause(blowers), vec![1]);
        add(true, v + 1, Cause::Excess, busy_end(v + 1));
        for stop in 1..=stops {
            let slot = v + 1 + 2 * stop;
            let rations = if stop == stops { last } else { blowers };
            if blower <= rations {
                add(false, slot - 1, idle_cause(rations), vec![slot]);
                if slot < 96 {
                    add(true, slot, Cause::Excess, busy_end(slot));
                }
            }
        }
        if let (1, Some([first, slot])) = (blower, late) {
            add(false, slot - 1, Cause::Shortfall, (first..=slot).collect());
            if slot < 96 {
                add(true, slot, Cause::Excess, busy_end(slot));
            }
        }
    }
    entries
}

/// Lines that the entries would have without a cut.
fn lines_of(entries: &[Entry]) -> usize {
    entries.iter().map(|e| 1 + e.slots.len()).sum()
}

/// 65,536 bytes hold 2,621 lines. For days of so many lines, how many are kept.
#[test]
fn long_listings_are_cut_between_entries() {
    for (day, late, whole, kept) in [
        // As many lines as there is room for, and so many with an entry to come.
        ([4, 63, 9, 3], Some([90, 96]), 2_621, 2_621),
        ([4, 63, 9, 3], Some([89, 95]), 2_686, 2_621),
        // The last entry, of nine lines, would be a line too many.
        ([4, 63, 9, 3], Some([89, 96]), 2_622, 2_613),
        // One line less than there is room for; an entry of two lines would be a line too many.
        ([5, 83, 6, 5], None, 2_620, 2_620),
        ([6, 83, 6, 6], None, 3_144, 2_620),
        // An entry of 87 lines does not fit, and shorter ones after it would.
        ([7, 85, 5, 4], None, 3_123, 2_587),
        ([8, 83, 6, 8], None, 4_192, 2_620),
    ] {
        let lines = long_day((day, late));
        let text: Vec<u8> = lines.into_iter().flat_map(line_text).collect();
        let sheet = read(&text).expect("accepted");
        let expected = long_day_entries((day, late));
        assert_eq!(entries(&sheet), Ok(expected.clone()));
        assert_eq!(lines_of(&expected), whole);
        let mut left = expected.iter();
        let mut text = Vec::new();
        while text.len() < kept * LINE {
            let entry = left.next().expect("an entry ends here");
            let size = entry.slots.len() as u32;
            text.extend(line_text([
                entry.blower,
                entry.last,
                entry.cause as u32,
                size,
            ]));
            for &slot in &entry.slots {
                text.extend(line_text([slot, 0, 0, 0]));
            }
        }
        assert_eq!(text.len(), kept * LINE);
        let next = left.next().map(|e| 1 + e.slots.len());
        assert!(next.is_none_or(|lines| kept + lines > 2_621));
        let answer = (0, 0, kept * LINE, kept < whole);
        for lent in [CAUSES_BUFFER, CAUSES_BUFFER + 1, 100_000] {
            assert_eq!(called(&sheet.text(), lent), (answer, text.clone()));
        }
        assert_eq!(why(&sheet.text()), text);
    }
}

/// A listing of entries with so many lines each, 2 to 97.
fn made_up(sizes: &[usize]) -> (usize, bool) {
    let entry = |&lines: &usize| Entry {
        blower: 1,
        busy: false,
        last: 1,
        cause: Cause::Shortfall,
        slots: (1..lines as u32).collect(),
    };
    let entries: Vec<Entry> = sizes.iter().map(entry).collect();
    let (text, cut) = listing(&entries);
    assert_eq!(text.len() % LINE, 0);
    (text.len() / LINE, cut)
}

#[test]
fn the_first_entry_that_does_not_fit_ends_the_listing() {
    assert_eq!(made_up(&[]), (0, false));
    assert_eq!(made_up(&[2]), (2, false));
    assert_eq!(made_up(&vec![2; 1_310]), (2_620, false));
    assert_eq!(made_up(&vec![2; 1_311]), (2_620, true));
    let mut sizes = vec![97; 27];
    assert_eq!(made_up(&sizes), (2_619, false));
    sizes.push(2);
    assert_eq!(made_up(&sizes), (2_621, false));
    sizes[27] = 3;
    assert_eq!(made_up(&sizes), (2_619, true));
    sizes.extend([2, 2]);
    assert_eq!(made_up(&sizes), (2_619, true));
}

/// Checks 1 to 9 and 13 of the sheet, then 10, then 12; nothing is written for any of them.
#[test]
fn the_checks_in_their_order() {
    let held = text("3 1 1 2 / 1 1 2 2 / 2 2 3 2");
    let good = text("3 1 1 1 / 1 1 3 1");
    for (sheet, number, line) in [
        (vec![], 1, 0),
        (good[..24].to_vec(), 1, 0),
        (b"     3     1     1    00\n".to_vec(), 2, 1),
        (text("97 1 1 0"), 3, 1),
        (text("3 9 1 0"), 4, 1),
        (text("3 1 2001 0"), 5, 1),
        (text("3 1 1 1"), 6, 1),
        (text("3 1 1 1 / 0 1 3 1"), 7, 2),
        (text("3 1 1 1 / 1 1 4 1"), 8, 2),
        (text("3 1 1 1 / 1 1 3 4"), 9, 2),
        (text("3 1 1 2 / 1 1 2 2 / 1 2 3 2"), 13, 3),
    ] {
        for lent in [0, 30, CAUSES_BUFFER - 1, CAUSES_BUFFER, CAUSES_BUFFER + 1] {
            assert_eq!(called(&sheet, lent).0, (number, line, 0, false));
        }
        let refusal = text(&format!("{number} {line} 0 0"));
        assert_eq!(why(&sheet), [b"HELD\n", &refusal[..]].concat());
    }
    for lent in [0, 50, CAUSES_BUFFER - 1] {
        assert_eq!(called(&held, lent).0, (10, 0, 0, false));
        assert_eq!(called(&good, lent).0, (10, 0, 0, false));
    }
    for lent in [CAUSES_BUFFER, CAUSES_BUFFER + 1, 100_000] {
        assert_eq!(called(&held, lent).0, (12, 0, 0, false));
        let entry = entry_lines(&["1 2 1 3: 1 2 3"]);
        assert_eq!(called(&good, lent), ((0, 0, 100, false), entry));
    }
    assert_eq!(
        why(&held),
        b"HELD\n    12     1     2     1\n     2     0     0     0\n"
    );
    assert_eq!(why(&held), program(&held));
}

/// The program writes what the call does, and what the first program does where the call
/// is refused.
#[test]
fn the_program_and_the_call_agree() {
    let mut draws = Draws::new(16);
    let mut numbers = [0; 14];
    for _ in 0..400 {
        let sheet = any_sheet(&mut draws, MIDDLE);
        let bytes = match draws.below(3) {
            0 => damaged_sheet(&mut draws, MIDDLE),
            _ => sheet.text(),
        };
        let ((number, line, _, cut), text) = called(&bytes, CAUSES_BUFFER);
        assert!(!cut);
        numbers[number as usize] += 1;
        match number {
            0 => assert_eq!(why(&bytes), text),
            12 => assert!(read(&bytes).is_ok_and(|sheet| shown_set(&sheet).is_some())),
            _ => assert_eq!(
                read(&bytes).map_err(|r| (r.number, r.line)),
                Err((number, line))
            ),
        }
        if number != 0 {
            assert_eq!(why(&bytes), program(&bytes));
        }
    }
    assert!(numbers[0] > 100 && numbers[12] > 50, "{numbers:?}");
}
