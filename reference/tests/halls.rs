//! Halls behind one mains fuse (request 108): groups settled by hand, number 14 and the
//! checks of each hall, and generated groups.

mod written;

use reference::draws::Draws;
use reference::generate::{any_sheet, random_sheet, MIDDLE, SMALL};
use reference::groups::{group, Group, ODD_HALLS, ODD_LIMITS};
use reference::halls::{plan_halls, Hall, HallPlanned, HallsPlanned, MOST_HALLS};
use reference::listing::{held_text_under, plan, plan_text, PLACING_WORDS, PLAN_BUFFER};
use reference::method::plan_under;
use reference::sheet::{read, LINE};
use written::text;

/// One ration that any slot of its day suits. Alone it is fed in slot 3.
const ANY_SLOT: &str = "3 1 1 1 / 1 1 3 1";
/// A sheet of document 01 that is held: two rations each need slot 2, and another one.
const HELD: &str = "3 1 1 2 / 1 1 2 2 / 2 2 3 2";

/// A sheet lent with buffers as long as they must be.
fn hall(sheet: Vec<u8>) -> Hall {
    Hall {
        sheet,
        listing_bytes: PLAN_BUFFER,
        placing_words: PLACING_WORDS,
    }
}

/// These sheets lent with buffers as long as they must be, and nothing for the halls that
/// are not there.
fn lent(days: &[&str]) -> [Hall; MOST_HALLS] {
    let mut lent: [Hall; MOST_HALLS] = Default::default();
    for (lent, day) in lent.iter_mut().zip(days) {
        *lent = hall(text(day));
    }
    lent
}

/// The answers of these halls, under a limit and a number of halls that are not refused.
/// Those that are not there answer nothing.
fn answers(limit: u32, halls: usize, lent: &[Hall; MOST_HALLS]) -> Vec<HallPlanned> {
    let HallsPlanned {
        number,
        line,
        halls: answers,
    } = plan_halls(limit, halls as u32, lent);
    assert_eq!((number, line), (0, 0));
    let (there, absent) = answers.split_at(halls);
    assert!(absent.iter().all(|a| *a == HallPlanned::default()));
    there.to_vec()
}

fn answers_of(limit: u32, days: &[&str]) -> Vec<HallPlanned> {
    answers(limit, days.len(), &lent(days))
}

/// A planned hall: its listing, and the words of its first slots, those of the others being 0.
fn planned(listing: &str, words: &[u64]) -> HallPlanned {
    let mut placing = words.to_vec();
    placing.resize(96, 0);
    HallPlanned {
        number: 0,
        line: 0,
        listing: listing.into(),
        placing,
    }
}

fn held(listing: &str) -> HallPlanned {
    HallPlanned {
        number: 12,
        ..planned(listing, &[])
    }
}

fn refused(number: u32, line: u32) -> HallPlanned {
    HallPlanned {
        number,
        line,
        listing: vec![],
        placing: vec![],
    }
}

/// How many rations are fed in each of the first slots.
fn counts(answer: &HallPlanned, slots: usize) -> Vec<u32> {
    let words = &answer.placing[..slots];
    words.iter().map(|word| word.count_ones()).collect()
}

/// Each hall feeds its ration as late as the halls before it allow. Nothing is left for the
/// fourth, which shows all slots, and against its one feeding a capacity of 0.
#[test]
fn each_hall_takes_what_the_earlier_ones_leave() {
    let first = "PLAN
     2     1     2     1
     1     1     2     0
     1     3     3     2
     3     1     1     1
     0     4     0     0
";
    let second = "PLAN
     2     1     3     1
     1     1     1     0
     1     2     2     2
     1     3     3     0
     2     1     1     1
     0     4     0     0
";
    let third = "PLAN
     2     1     2     1
     1     1     1     2
     1     2     3     0
     1     1     1     1
     0     4     0     0
";
    let fourth = "HELD
    12     3     1     0
     1     0     0     0
     2     0     0     0
     3     0     0     0
";
    let all = [
        planned(first, &[0, 0, 1]),
        planned(second, &[0, 1]),
        planned(third, &[1]),
        held(fourth),
    ];
    assert_eq!(answers_of(1, &[ANY_SLOT; 4]), all);
    for halls in 1..4 {
        assert_eq!(answers_of(1, &vec![ANY_SLOT; halls]), all[..halls]);
    }
    // With one blower more two halls can feed in each slot.
    let two = answers_of(2, &[ANY_SLOT; 4]);
    assert_eq!(two, [&all[0], &all[0], &all[1], &all[1]].map(Clone::clone));
}

/// The first hall leaves one blower of three in slot 2. In the second hall's idle step for
/// blower 3 this bound stays 1: were it raised to 2, the step for blower 2 would pass in
/// slot 1 and not in slot 2, as it does where the hall is alone. Blower 3 has its line
/// though it can never be busy in slot 2.
#[test]
fn an_idle_step_raises_no_bound() {
    let before = "2 2 0 2 / 1 2 2 1 / 2 2 2 1";
    let day = "2 3 0 3 / 1 1 2 1 / 2 1 2 1 / 3 1 2 1";
    let listing = "PLAN
     3     2     4     3
     1     1     2     2
     2     1     1     2
     2     2     2     0
     3     1     2     0
     1     1     1     1
     1     2     2     1
     2     1     3     1
     0     5     0     0
";
    let both = answers_of(3, &[before, day]);
    assert_eq!(counts(&both[0], 2), [0, 2]);
    assert_eq!(both[1], planned(listing, &[0b011, 0b100]));
    assert_eq!(counts(&answers_of(3, &[day])[0], 2), [1, 2]);
}

/// With limit 1 blowers 2 and 3 never run, and have their lines. Without rations the first
/// hall uses nothing.
#[test]
fn every_blower_of_a_hall_has_its_lines() {
    let listing = "PLAN
     2     1     3     2
     1     1     2     2
     2     1     2     0
     3     1     2     0
     1     1     1     1
     2     1     2     1
     0     4     0     0
";
    let both = answers_of(1, &["2 8 0 0", "2 3 0 2 / 1 1 2 1 / 2 1 2 1"]);
    assert_eq!(counts(&both[0], 2), [0, 0]);
    assert_eq!(both[1], planned(listing, &[0b01, 0b10]));
}

/// The first hall leaves one blower in slot 1 and two in the others. Four feedings are
/// forced into slots 1 and 2, which alone would do: twice two blowers.
#[test]
fn the_capacity_is_the_sum_of_the_bounds() {
    let before = "3 1 0 1 / 1 1 1 1";
    let day = "3 2 0 3 / 1 1 2 2 / 2 1 2 1 / 3 1 2 1";
    let listing =
        "HELD\n    12     2     4     3\n     1     0     0     0\n     2     0     0     0\n";
    assert_eq!(answers_of(2, &[before, day])[1], held(listing));
    assert_eq!(counts(&answers_of(2, &[day])[0], 3), [2, 2, 0]);
    // Its own blowers are the smaller bound where the limit leaves more.
    assert_eq!(counts(&answers_of(3, &[before, day])[1], 3), [2, 2, 0]);
}

/// The held hall shows what it would show alone, and the one after it is planned as alone.
#[test]
fn a_held_hall_uses_nothing() {
    let listing = "HELD\n    12     1     2     1\n     2     0     0     0\n";
    let alone = answers_of(1, &[ANY_SLOT; 2]);
    let three = answers_of(1, &[HELD, ANY_SLOT, ANY_SLOT]);
    assert_eq!(three[0], held(listing));
    assert_eq!(three[1..], alone);
    let three = answers_of(1, &[ANY_SLOT, HELD, ANY_SLOT]);
    assert_eq!(three[1].number, 12);
    assert_eq!([&three[0], &three[2]], [&alone[0], &alone[1]]);
}

/// A sheet for each check, with the line that it names.
#[test]
fn a_refused_hall_uses_nothing() {
    let alone = answers_of(1, &[ANY_SLOT; 2]);
    for (day, number, line) in [
        ("97 1 1 1 / 1 1 3 1", 3, 1),
        ("3 9 1 1 / 1 1 3 1", 4, 1),
        ("3 1 2001 1 / 1 1 3 1", 5, 1),
        ("3 1 1 2 / 1 1 3 1", 6, 1),
        ("3 1 1 1 / 0 1 3 1", 7, 2),
        ("3 1 1 1 / 1 1 4 1", 8, 2),
        ("3 1 1 1 / 1 1 3 4", 9, 2),
        ("3 1 1 2 / 1 1 3 1 / 1 3 3 1", 13, 3),
    ] {
        let three = answers_of(1, &[day, ANY_SLOT, ANY_SLOT]);
        assert_eq!(three[0], refused(number, line), "{day}");
        assert_eq!(three[1..], alone, "{day}");
        let three = answers_of(1, &[ANY_SLOT, day, ANY_SLOT]);
        assert_eq!(three[1], refused(number, line), "{day}");
        assert_eq!([&three[0], &three[2]], [&alone[0], &alone[1]], "{day}");
    }
    let mut halls = lent(&[ANY_SLOT; 3]);
    halls[0].sheet.pop();
    assert_eq!(answers(1, 3, &halls)[0], refused(1, 0));
    assert_eq!(answers(1, 3, &halls)[1..], alone);
    halls[0].sheet = text(ANY_SLOT);
    halls[0].sheet[2 * LINE - 1] = b' ';
    assert_eq!(answers(1, 3, &halls)[0], refused(2, 2));
    assert_eq!(answers(1, 3, &halls)[1..], alone);
}

/// A listing buffer one byte too short, or a placing buffer one word too short, refuses its
/// own hall alone. It comes after the checks of the sheet and before 12.
#[test]
fn a_hall_with_a_short_buffer_uses_nothing() {
    let alone = answers_of(1, &[ANY_SLOT; 2]);
    let shortened = |days: &[&str], at: usize, bytes: usize, words: usize| {
        let mut halls = lent(days);
        halls[at].listing_bytes = bytes;
        halls[at].placing_words = words;
        answers(1, days.len(), &halls)
    };
    for (bytes, words) in [
        (38_454, 96),
        (38_455, 95),
        (38_454, 95),
        (32_303, 96),
        (0, 0),
    ] {
        let three = shortened(&[ANY_SLOT; 3], 0, bytes, words);
        assert_eq!(three[0], refused(10, 0));
        assert_eq!(three[1..], alone);
        let three = shortened(&[ANY_SLOT; 3], 1, bytes, words);
        assert_eq!(three[1], refused(10, 0));
        assert_eq!([&three[0], &three[2]], [&alone[0], &alone[1]]);
        assert_eq!(shortened(&[HELD], 0, bytes, words)[0], refused(10, 0));
        let fault = "3 1 1 1 / 1 1 3 4";
        assert_eq!(shortened(&[fault], 0, bytes, words)[0], refused(9, 2));
    }
    for (bytes, words) in [(38_455, 96), (38_456, 97)] {
        assert_eq!(shortened(&[ANY_SLOT; 2], 0, bytes, words), alone);
    }
}

/// The first hall's day has one slot, in which it uses the limit. After it a longer day
/// finds slots 2 and 3 free and slot 1 taken.
#[test]
fn a_hall_uses_nothing_past_its_last_slot() {
    let short = "1 1 0 1 / 1 1 1 1";
    let later = "3 1 0 2 / 1 2 2 1 / 2 3 3 1";
    assert_eq!(
        counts(&answers_of(1, &[short, later])[1], 96)[..4],
        [0, 1, 1, 0]
    );
    let early = "3 1 0 1 / 1 1 1 1";
    let listing = "HELD\n    12     1     1     0\n     1     0     0     0\n";
    assert_eq!(answers_of(1, &[short, early])[1], held(listing));
    // The longer day first, busy throughout: nothing is left in either slot of the shorter.
    let throughout = "3 1 0 1 / 1 1 3 3";
    let listing =
        "HELD\n    12     2     1     0\n     1     0     0     0\n     2     0     0     0\n";
    let both = answers_of(1, &[throughout, "2 1 0 1 / 1 1 2 1"]);
    assert_eq!(both[1], held(listing));
    // A day of 96 slots after one of 95 has the last slot to itself.
    let day = "96 1 0 1 / 1 90 96 1";
    let both = answers_of(1, &["95 1 0 1 / 1 1 95 95", day]);
    assert_eq!(counts(&both[0], 96)[94..], [1, 0]);
    assert_eq!(counts(&both[1], 96)[94..], [0, 1]);
}

/// Nothing is written, and every hall answers zeros, whatever is lent.
#[test]
fn number_14_comes_before_all_sheets() {
    let refused = HallsPlanned {
        number: 14,
        ..HallsPlanned::default()
    };
    let mut short = lent(&[ANY_SLOT; 4]);
    short[0].placing_words = 0;
    short[1].sheet.clear();
    for lent in [lent(&[ANY_SLOT; 4]), lent(&[]), short] {
        for limit in ODD_LIMITS {
            for halls in (0..=5).chain(ODD_HALLS) {
                assert_eq!(plan_halls(limit, halls, &lent), refused);
            }
        }
        for halls in ODD_HALLS {
            for limit in 0..=33 {
                assert_eq!(plan_halls(limit, halls, &lent), refused);
            }
        }
        for (limit, halls) in [(1, 1), (1, 4), (32, 1), (32, 4)] {
            assert_eq!(plan_halls(limit, halls, &lent).number, 0);
        }
    }
}

/// Under a limit of all blowers together each hall is planned as alone.
#[test]
fn a_limit_that_does_not_bind() {
    let mut draws = Draws::new(15);
    for _ in 0..200 {
        let halls: [Hall; MOST_HALLS] =
            std::array::from_fn(|_| hall(any_sheet(&mut draws, SMALL).text()));
        let blowers = |hall: &Hall| read(&hall.sheet).expect("well-formed").blowers;
        let limit = halls.iter().map(blowers).sum();
        for (hall, answer) in halls.iter().zip(answers(limit, MOST_HALLS, &halls)) {
            let (mut listing, mut placing) = (vec![0; PLAN_BUFFER], vec![9; PLACING_WORDS]);
            let alone = plan(&hall.sheet, Some(&mut listing), Some(&mut placing));
            listing.truncate(alone.2);
            assert_eq!((answer.number, answer.line, answer.listing.len()), alone);
            assert_eq!((answer.listing, answer.placing), (listing, placing));
        }
    }
}

/// The groups that the tests below go through.
fn generated(seed: u32, small: u32, middle: u32) -> Vec<Group> {
    let draws = &mut Draws::new(seed);
    let sizes = [(SMALL, small), (MIDDLE, middle)];
    sizes
        .into_iter()
        .flat_map(|(limits, count)| (0..count).map(move |_| limits))
        .map(|limits| {
            group(draws, |d| match d.one_in(3) {
                true => any_sheet(d, limits).text(),
                false => random_sheet(d, limits).text(),
            })
        })
        .collect()
}

/// No slot has more busy blowers in all halls than the limit, and each hall that is planned
/// or held is so under its blowers and what the placing words of those before it leave.
#[test]
fn what_is_used_is_what_the_words_show() {
    let mut bound = 0;
    for Group { limit, halls, lent } in generated(16, 400, 60) {
        let answer = plan_halls(limit, halls, &lent);
        let mut used = [0; 96];
        for (hall, answer) in lent.iter().zip(&answer.halls) {
            if answer.listing.is_empty() {
                continue;
            }
            let sheet = read(&hall.sheet).expect("planned or held");
            let highs: Vec<u32> = used[..sheet.slots as usize]
                .iter()
                .map(|used| (limit - used).min(sheet.blowers))
                .collect();
            bound += u32::from(highs.iter().any(|&high| high < sheet.blowers));
            let listing = match plan_under(&sheet, &highs) {
                Ok(plan) => plan_text(&plan),
                Err(shown) => held_text_under(&sheet, &highs, &shown),
            };
            assert_eq!(answer.listing, listing, "{hall:?} {highs:?}");
            for (used, count) in used.iter_mut().zip(counts(answer, 96)) {
                *used += count;
                assert!(*used <= limit);
            }
        }
    }
    assert!(bound > 300, "{bound} halls under a bound of the limit");
}

/// Whatever is lent for a later hall, the earlier ones answer the same.
#[test]
fn a_later_hall_leaves_the_earlier_ones_as_they_were() {
    let groups = generated(17, 150, 10);
    for (group, other) in groups.iter().zip(&groups[1..]) {
        let halls = group.halls.min(4) as usize;
        let answer = plan_halls(group.limit, group.halls, &group.lent);
        for changed in 0..MOST_HALLS {
            let mut lent = group.lent.clone();
            lent[changed] = other.lent[changed].clone();
            let after = plan_halls(group.limit, group.halls, &lent);
            let kept = if changed < halls { changed } else { MOST_HALLS };
            assert_eq!(after.halls[..kept], answer.halls[..kept]);
        }
    }
}
