//! Short rations, equally cut (request 111): days settled by hand, the checks of the call, small
//! days settled by enumerating placings, and generated days of all sizes.

mod written;

use reference::draws::Draws;
use reference::generate::{any_sheet, heavy_sheet, held_full_sheet, Sizes, FULL, MIDDLE, SMALL};
use reference::listing::{plan, PLACING_WORDS, PLAN_BUFFER};
use reference::placing::{shown_set, Placing, Question};
use reference::practice::practice_sheet;
use reference::share::{cut_sheet, greatest_share, plan_share, sound_shares, SharePlanned};
use reference::sheet::{read, Ration, Sheet, LINE};
use written::text;

/// A sheet of document 01 that is held: two rations each need slot 2, and another one.
const HELD: &str = "3 1 1 2 / 1 1 2 2 / 2 2 3 2";

/// The answer for a day, lent buffers as long as they must be.
fn answer(day: &str) -> SharePlanned {
    plan_share(&text(day), PLAN_BUFFER, PLACING_WORDS)
}

/// The answer of a planned day: its share, its listing, and the words of its first slots, those of
/// the others being 0.
fn planned(share: u32, listing: &str, words: &[u64]) -> SharePlanned {
    let mut placing = words.to_vec();
    placing.resize(96, 0);
    SharePlanned {
        number: 0,
        line: 0,
        share,
        listing: listing.into(),
        placing,
    }
}

/// A refusal: share 0, and nothing is written.
fn refused(number: u32, line: u32) -> SharePlanned {
    SharePlanned {
        number,
        line,
        share: 0,
        listing: vec![],
        placing: vec![],
    }
}

/// A day of so many rations alike: their windows are the whole day, and their volume is the same.
fn alike(slots: u32, blowers: u32, n: u32, volume: u32) -> String {
    let rations: String = (1..=n)
        .map(|tank| format!(" / {tank} 1 {slots} {volume}"))
        .collect();
    format!("{slots} {blowers} 0 {n}{rations}")
}

/// The volumes of a day's rations, cut to a share.
fn volumes(day: &str, share: u32) -> Vec<u32> {
    let sheet = read(&text(day)).expect("well-formed");
    let cut = cut_sheet(&sheet, share);
    cut.rations.iter().map(|ration| ration.volume).collect()
}

/// The first listing of document 01, and the words of its placing.
#[test]
fn a_day_that_fits_is_planned_as_it_is() {
    let listing = "PLAN
     9     2     4     5
     1     1     4     2
     2     1     2     0
     2     3     3     2
     2     4     4     0
     1     1     1     1
     2     1     1     2
     3     1     2     1
     3     2     3     1
     4     1     2     2
     0    16     0     0
";
    let day = "4 2 2 3 / 1 1 2 2 / 2 1 4 2 / 3 2 3 1";
    assert_eq!(answer(day), planned(100, listing, &[1, 1, 6, 2]));
}

#[test]
fn a_day_without_rations_fits() {
    let listing =
        "PLAN\n     0     0     1     0\n     1     1     3     0\n     0     0     0     0\n";
    for day in ["3 1 4 0", "3 1 3 0"] {
        assert_eq!(answer(day), planned(100, listing, &[]));
    }
}

/// Share 99 leaves one feeding of each ration, 1.98 rounded down: tank 1 is fed in slot 2, so that
/// slot 1 is idle, and tank 2 in slot 3.
#[test]
fn the_held_day_of_document_01() {
    let listing = "PLAN
     3     1     2     2
     1     1     1     0
     1     2     3     2
     2     1     1     1
     3     1     2     1
     0     5     0     0
";
    assert_eq!(volumes(HELD, 99), [1, 1]);
    assert_eq!(answer(HELD), planned(99, listing, &[0, 0b01, 0b10]));
}

/// Volumes by hand: × share / 100, rounded down.
#[test]
fn volumes_of_cut_sheets() {
    let day = "96 8 0 6 / 1 1 1 1 / 2 1 2 2 / 3 1 3 3 / 4 1 50 50 / 5 1 67 67 / 6 1 96 96";
    for (share, expected) in [
        (0, [0, 0, 0, 0, 0, 0]),
        (1, [0, 0, 0, 0, 0, 0]),
        (2, [0, 0, 0, 1, 1, 1]),
        (3, [0, 0, 0, 1, 2, 2]),
        (4, [0, 0, 0, 2, 2, 3]),
        (33, [0, 0, 0, 16, 22, 31]),
        (34, [0, 0, 1, 17, 22, 32]),
        (49, [0, 0, 1, 24, 32, 47]),
        (50, [0, 1, 1, 25, 33, 48]),
        (66, [0, 1, 1, 33, 44, 63]),
        (67, [0, 1, 2, 33, 44, 64]),
        (98, [0, 1, 2, 49, 65, 94]),
        (99, [0, 1, 2, 49, 66, 95]),
        (100, [1, 2, 3, 50, 67, 96]),
    ] {
        assert_eq!(volumes(day, share), expected, "share {share}");
    }
    let sheet = read(&text(day)).expect("well-formed");
    let cut = cut_sheet(&sheet, 50);
    assert_eq!(
        (cut.slots, cut.blowers, cut.wake),
        (sheet.slots, sheet.blowers, sheet.wake)
    );
    for (cut, ration) in cut.rations.iter().zip(&sheet.rations) {
        let volume = ration.volume;
        assert_eq!(Ration { volume, ..*cut }, *ration);
    }
}

/// Rations alike, whose windows are the whole day, fit exactly where there are as many blowers and
/// slots as feedings.
#[test]
fn shares_settled_by_hand() {
    for (slots, blowers, n, volume, share) in [
        // Share 2 leaves each ration one feeding, 64 in 50 slots; share 1 leaves none.
        (50, 1, 64, 50, 1),
        // One feeding each at shares 2 and 3, and two from share 4 on.
        (50, 1, 50, 50, 3),
        // Share 3 of 67 is 2.01: 128 feedings in 67 slots.
        (67, 1, 64, 67, 2),
        // One feeding from share 34 on, four in three slots; at share 33 it is 0.99.
        (3, 1, 4, 3, 33),
        // One feeding from share 50 on, three in two slots.
        (2, 1, 3, 2, 49),
        // 25.5 and 26.01 at shares 50 and 51: 50 and 52 feedings in 51 slots.
        (51, 1, 2, 51, 50),
        // 48.96 and 49.92 at shares 51 and 52: 96 and 98 feedings in 96 slots.
        (96, 1, 2, 96, 51),
        // Two feedings from share 67 on, six in three slots.
        (3, 1, 3, 3, 66),
        // 49.98 and 50.49 at shares 98 and 99: 147 and 150 feedings of two blowers in 74 slots.
        (74, 2, 3, 51, 98),
        // Share 99 takes one feeding from each ration: 63 feedings, where 64 are possible.
        (8, 8, 9, 8, 99),
        (8, 8, 8, 8, 100),
        (96, 8, 64, 12, 100),
    ] {
        let day = alike(slots, blowers, n, volume);
        let answer = answer(&day);
        assert_eq!((answer.number, answer.line), (0, 0));
        assert_eq!(answer.share, share, "{n} × {volume} in {slots} × {blowers}");
        let fed: u32 = answer.placing.iter().map(|word| word.count_ones()).sum();
        assert_eq!(fed, n * (volume * share / 100));
    }
}

/// Each share from 34 to 66 leaves three rations one feeding each, and the greatest is answered.
/// Share 67 leaves two feedings.
#[test]
fn shares_of_the_same_cut_sheet() {
    let day = "3 1 0 3 / 1 1 3 3 / 2 1 3 3 / 3 1 3 3";
    for share in 34..=66 {
        assert_eq!(volumes(day, share), [1; 3]);
    }
    assert_eq!(
        (volumes(day, 33), volumes(day, 67)),
        (vec![0; 3], vec![2; 3])
    );
    let listing = "PLAN
     3     1     1     3
     1     1     3     2
     1     1     1     1
     2     1     2     1
     3     1     3     1
     0     5     0     0
";
    assert_eq!(answer(day), planned(66, listing, &[0b001, 0b010, 0b100]));
    let sheet = read(&text(day)).expect("well-formed");
    let expected: Vec<bool> = (0..=100).map(|share| share <= 66).collect();
    assert_eq!(sound_shares(&sheet), expected);
}

/// Two rations of one feeding in the only slot: whatever is cut, neither is fed. So too where the
/// share is 1.
#[test]
fn every_ration_is_cut_to_0() {
    let idle =
        "PLAN\n     0     0     1     0\n     1     1     1     0\n     0     0     0     0\n";
    let day = "1 1 200 2 / 1 1 1 1 / 2 1 1 1";
    assert_eq!(answer(day), planned(99, idle, &[]));
    let idle =
        "PLAN\n     0     0     1     0\n     1     1    50     0\n     0     0     0     0\n";
    assert_eq!(answer(&alike(50, 1, 64, 50)), planned(1, idle, &[]));
}

/// One ration of three is cut to 0, and the others are fed in slots 2 and 3. Those after it keep
/// their bits.
#[test]
fn a_ration_cut_to_0_keeps_its_place() {
    let listing = |first: u32, second: u32| {
        format!(
            "PLAN
     2     1     2     2
     1     1     1     0
     1     2     3     2
     2     1     {first}     1
     3     1     {second}     1
     0     4     0     0
"
        )
    };
    let day = "3 1 0 3 / 1 1 3 1 / 2 1 2 2 / 3 2 3 2";
    let expected = planned(99, &listing(2, 3), &[0, 0b010, 0b100]);
    assert_eq!(answer(day), expected);
    let day = "3 1 0 3 / 1 1 2 2 / 2 1 3 1 / 3 2 3 2";
    let expected = planned(99, &listing(1, 3), &[0, 0b001, 0b100]);
    assert_eq!(answer(day), expected);
    let day = "3 1 0 3 / 1 1 2 2 / 2 2 3 2 / 3 1 3 1";
    let expected = planned(99, &listing(1, 2), &[0, 0b001, 0b010]);
    assert_eq!(answer(day), expected);
}

/// Of 64 rations every other one is cut to 0, the last one is not: 32 feedings in four slots.
#[test]
fn the_last_bit_stays() {
    let ration = |i: u32| match i % 2 {
        1 => format!(" / {i} 1 1 1"),
        _ => format!(" / {i} 1 4 2"),
    };
    let rations: String = (1..=64).map(ration).collect();
    let answer = answer(&format!("4 8 0 64{rations}"));
    assert_eq!(answer.share, 99);
    let fed = answer.placing.iter().fold(0, |fed, word| fed | word);
    assert_eq!(fed, 0xaaaa_aaaa_aaaa_aaaa);
    let counts: Vec<u32> = answer
        .placing
        .iter()
        .map(|word| word.count_ones())
        .collect();
    assert_eq!(counts[..5], [8, 8, 8, 8, 0]);
}

/// The first meal of tank 5 is cut to 0, its second one to 3, and the ration of tank 6 to 1: four
/// feedings in slots 3 to 6. Parts count the feedings of the second meal.
#[test]
fn a_meal_is_cut_to_0() {
    let listing = "PLAN
     6     1     2     4
     1     1     2     0
     1     3     6     2
     3     1     5     1
     4     1     5     2
     5     1     5     3
     6     1     6     1
     0    11     0     0
";
    let day = "6 1 2 3 / 5 1 2 1 / 5 3 6 4 / 6 3 6 2";
    assert_eq!(volumes(day, 99), [0, 3, 1]);
    let words = [0, 0, 0b010, 0b010, 0b010, 0b100];
    assert_eq!(answer(day), planned(99, listing, &words));
}

/// Four rations are cut to one feeding each: slots 1, 2, 5 and 6. The two idle slots between them
/// are on where the wake cost is 3, and off where it is 2.
#[test]
fn the_wake_cost_is_not_cut() {
    let on = "PLAN
     9     1     4     4
     1     1     2     2
     1     3     4     1
     1     5     6     2
     1     7     8     0
     1     1     1     1
     2     1     2     1
     5     1     3     1
     6     1     4     1
     0    16     0     0
";
    let off = "PLAN
     8     2     4     4
     1     1     2     2
     1     3     4     0
     1     5     6     2
     1     7     8     0
     1     1     1     1
     2     1     2     1
     5     1     3     1
     6     1     4     1
     0    14     0     0
";
    let words = [0b0001, 0b0010, 0, 0, 0b0100, 0b1000];
    for (wake, listing) in [(3, on), (2, off)] {
        let day = format!("8 1 {wake} 4 / 1 1 2 2 / 2 1 2 2 / 3 5 6 2 / 4 5 6 2");
        assert_eq!(answer(&day), planned(99, listing, &words));
    }
}

/// The held day with a fault for each check of a sheet, and the line that it names. A volume of 0
/// on the sheet itself is a fault, though one that is cut to 0 is none.
fn faults() -> Vec<(Vec<u8>, u32, u32)> {
    let days = [
        ("0 1 1 2 / 1 1 2 2 / 2 2 3 2", 3, 1),
        ("97 1 1 2 / 1 1 2 2 / 2 2 3 2", 3, 1),
        ("3 0 1 2 / 1 1 2 2 / 2 2 3 2", 4, 1),
        ("3 9 1 2 / 1 1 2 2 / 2 2 3 2", 4, 1),
        ("3 1 2001 2 / 1 1 2 2 / 2 2 3 2", 5, 1),
        ("3 1 1 3 / 1 1 2 2 / 2 2 3 2", 6, 1),
        ("3 1 1 65 / 1 1 2 2 / 2 2 3 2", 6, 1),
        ("3 1 1 2 / 0 1 2 2 / 2 2 3 2", 7, 2),
        ("3 1 1 2 / 3 1 2 2 / 2 2 3 2", 7, 3),
        ("3 1 1 2 / 1 1 2 2 / 250001 2 3 2", 7, 3),
        ("3 1 1 2 / 1 1 2 2 / 2 2 4 2", 8, 3),
        ("3 1 1 2 / 1 0 2 2 / 2 2 3 2", 8, 2),
        ("3 1 1 2 / 1 1 2 0 / 2 2 3 2", 9, 2),
        ("3 1 1 2 / 1 1 2 2 / 2 2 3 3", 9, 3),
        ("3 1 1 2 / 1 1 2 2 / 1 2 3 2", 13, 3),
    ];
    let held = text(HELD);
    let mut faults = vec![(vec![], 1, 0), (held[..held.len() - 1].to_vec(), 1, 0)];
    for at in [0, 2 * LINE - 1, 2 * LINE + 1] {
        let mut spoilt = held.clone();
        spoilt[at] = b'-';
        faults.push((spoilt, 2, at as u32 / LINE as u32 + 1));
    }
    faults.extend(days.map(|(day, number, line)| (text(day), number, line)));
    faults
}

/// Lengths of the two buffers of which one is too short, or both.
const SHORT: [(usize, usize); 8] = [
    (38_454, 96),
    (38_455, 95),
    (38_454, 95),
    (39_000, 95),
    (38_454, 6_144),
    (32_303, 96),
    (0, 96),
    (0, 0),
];

#[test]
fn each_fault_of_a_sheet_is_refused() {
    for (sheet, number, line) in faults() {
        let answer = plan_share(&sheet, PLAN_BUFFER, PLACING_WORDS);
        assert_eq!(answer, refused(number, line));
    }
}

/// A sheet that is held is refused too where a buffer is short, and one that fits.
#[test]
fn a_short_buffer_is_refused() {
    for (bytes, words) in SHORT {
        for day in [HELD, "3 1 4 0", "1 1 0 1 / 1 1 1 1"] {
            assert_eq!(plan_share(&text(day), bytes, words), refused(10, 0));
        }
    }
    for (bytes, words) in [(38_455, 96), (38_456, 97), (39_000, 6_144)] {
        assert_eq!(plan_share(&text(HELD), bytes, words), answer(HELD));
    }
}

#[test]
fn faults_of_the_sheet_come_before_short_buffers() {
    for (sheet, number, line) in faults() {
        for (bytes, words) in SHORT {
            assert_eq!(plan_share(&sheet, bytes, words), refused(number, line));
        }
    }
}

/// Whether the rations can be placed where each slot still takes so many feedings: every set of
/// slots is tried for the first ration, and with each of them every placing of the others.
fn can_be_placed(rations: &[Ration], room: &[u32]) -> bool {
    let Some((ration, others)) = rations.split_first() else {
        return true;
    };
    (0..1_u32 << room.len()).any(|set| {
        let chosen = |t: usize| set >> t & 1 == 1;
        let allowed = |t: usize| ration.window_holds(t as u32 + 1) && room[t] > 0;
        let left = || {
            let rest = room.iter().enumerate();
            rest.map(|(t, &room)| room - u32::from(chosen(t)))
                .collect::<Vec<u32>>()
        };
        set.count_ones() == ration.volume
            && (0..room.len()).all(|t| allowed(t) || !chosen(t))
            && can_be_placed(others, &left())
    })
}

/// Small days: each share's answer is that of the enumeration, and the greatest is answered.
#[test]
fn shares_of_small_days() {
    const TINY: Sizes = Sizes {
        slots: 5,
        blowers: 2,
        wake: 3,
        rations: 5,
    };
    let mut draws = Draws::new(113);
    let mut shares = [0; 101];
    for round in 0..1_500 {
        let sheet = match round % 3 {
            0 => any_sheet(&mut draws, TINY),
            _ => heavy_sheet(&mut draws, TINY),
        };
        let room = vec![sheet.blowers; sheet.slots as usize];
        let expected: Vec<bool> = (0..=100)
            .map(|share| can_be_placed(&cut_sheet(&sheet, share).rations, &room))
            .collect();
        assert_eq!(sound_shares(&sheet), expected, "{sheet:?}");
        let greatest = expected.iter().rposition(|&is_sound| is_sound);
        let answer = plan_share(&sheet.text(), PLAN_BUFFER, PLACING_WORDS);
        assert_eq!(Some(answer.share as usize), greatest, "{sheet:?}");
        shares[answer.share as usize] += 1;
    }
    for share in [24, 33, 39, 49, 59, 66, 74, 79, 99, 100] {
        assert!(shares[share] > 0, "share {share}: {shares:?}");
    }
}

/// The placing that words show, for the rations and slots of a sheet; every other bit is 0.
fn placing_of(sheet: &Sheet, words: &[u64]) -> Placing {
    let (n, day) = (sheet.rations.len(), sheet.slots as usize);
    assert_eq!(words.len(), 96);
    assert!(words[day..].iter().all(|&word| word == 0));
    assert!(n == 64 || words.iter().all(|&word| word >> n == 0));
    let row = |i: usize| words[..day].iter().map(|word| word >> i & 1 == 1).collect();
    (0..n).map(row).collect()
}

/// Listing and words that planning with both buffers gives a sheet that has a sound placing.
fn plan_of(sheet: &Sheet) -> (Vec<u8>, Vec<u64>) {
    let (mut listing, mut placing) = (vec![9; PLAN_BUFFER], vec![9; PLACING_WORDS]);
    let (number, line, length) = plan(&sheet.text(), Some(&mut listing), Some(&mut placing));
    assert_eq!((number, line), (0, 0), "{sheet:?}");
    listing.truncate(length);
    (listing, placing)
}

/// The words are a sound placing of the cut sheet, and the next share has none: so have all
/// smaller shares one, and all greater none. A sheet that fits has share 100. The listing is that
/// of the sheet without the rations that are cut to 0, and so are the words, but for the places of
/// their bits. Gives the share.
fn check(sheet: &Sheet) -> u32 {
    let answer = plan_share(&sheet.text(), PLAN_BUFFER, PLACING_WORDS);
    assert_eq!((answer.number, answer.line), (0, 0));
    let share = answer.share;
    let written = (answer.listing, answer.placing);
    let cut = cut_sheet(sheet, share);
    let placing = placing_of(&cut, &written.1);
    assert!(Question::of_day(&cut).is_sound(&placing), "{sheet:?}");
    if share < 100 {
        let next = cut_sheet(sheet, share + 1);
        assert!(shown_set(&next).is_some(), "{sheet:?}");
    }
    let front: Vec<bool> = (0..=100).map(|other| other <= share).collect();
    assert_eq!(sound_shares(sheet), front, "{sheet:?}");

    let fits = shown_set(sheet).is_none();
    assert_eq!(share == 100, fits, "{sheet:?}");
    if fits {
        assert_eq!(written, plan_of(sheet), "{sheet:?}");
    }
    let is_fed = |i: &usize| cut.rations[*i].volume > 0;
    let fed: Vec<usize> = (0..cut.rations.len()).filter(is_fed).collect();
    let without = Sheet {
        rations: fed.iter().map(|&i| cut.rations[i]).collect(),
        ..cut
    };
    let (listing, words) = plan_of(&without);
    let moved = |word: &u64| {
        let bits = fed.iter().enumerate();
        bits.fold(0, |moved, (from, to)| moved | (word >> from & 1) << to)
    };
    let words = words.iter().map(moved).collect();
    assert_eq!(written, (listing, words), "{sheet:?}");
    share
}

#[test]
fn shares_of_days_of_all_sizes() {
    let mut draws = Draws::new(114);
    let mut shares = [0; 101];
    for (limits, any, heavy) in [(SMALL, 400, 300), (MIDDLE, 100, 120), (FULL, 10, 16)] {
        for _ in 0..any {
            shares[check(&any_sheet(&mut draws, limits)) as usize] += 1;
        }
        for _ in 0..heavy {
            shares[check(&heavy_sheet(&mut draws, limits)) as usize] += 1;
        }
    }
    for _ in 0..4 {
        shares[check(&held_full_sheet(&mut draws)) as usize] += 1;
    }
    for seed in 0..30 {
        shares[check(&practice_sheet(seed)) as usize] += 1;
    }
    assert_eq!(shares[0], 0);
    for range in [
        1..=20,
        21..=40,
        41..=60,
        61..=80,
        81..=98,
        99..=99,
        100..=100,
    ] {
        let some: u32 = shares[range.clone()].iter().sum();
        assert!(some > 15, "shares {range:?}: {shares:?}");
    }
}

/// Whatever the sheet asks for, share 1 leaves nothing to feed: no share is 0.
#[test]
fn no_accepted_sheet_has_share_0() {
    for slots in [1, 2, 49, 50, 51, 96] {
        for blowers in [1, 8] {
            let sheet = read(&text(&alike(slots, blowers, 64, slots))).expect("well-formed");
            assert!(cut_sheet(&sheet, 1).rations.iter().all(|r| r.volume == 0));
            assert!(greatest_share(&sheet) > 0);
        }
    }
}
