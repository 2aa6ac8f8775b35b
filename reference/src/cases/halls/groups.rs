//! Groups made by hand: halls planned, held and refused in every combination, limits and
//! numbers of halls at and beyond their ends, days of different lengths, buffers of all
//! lengths, halls that are not there, and halls of full size.

use super::exact_hall;
use crate::cases::sheets::{
    day_of, document_days, first_day, full_day, held_day, refused_by, settled_days, text,
    wide_days, with, Lines, FIVE_COLUMN_PLAN, SHEET_CHECKS,
};
use crate::groups::{Group, LONGEST_LISTING, LONGEST_PLACING, ODD_HALLS, ODD_LIMITS};
use crate::halls::{Hall, MOST_HALLS, MOST_LIMIT};
use crate::listing::{PLACING_WORDS, PLAN_BUFFER};
use crate::sheet::{LINE, MOST_SLOTS};

pub fn groups() -> Vec<Group> {
    [
        combined(),
        ends(),
        limits(),
        lengths(),
        buffers(),
        absent(),
        pairs(),
        wide(),
        large(),
    ]
    .concat()
}

/// A group of these halls, nothing being lent for the others.
fn group_of(limit: u32, halls: Vec<Hall>) -> Group {
    let mut lent: [Hall; MOST_HALLS] = Default::default();
    let there = halls.len() as u32;
    for (lent, hall) in lent.iter_mut().zip(halls) {
        *lent = hall;
    }
    Group {
        limit,
        halls: there,
        lent,
    }
}

fn hall_of(lines: &Lines) -> Hall {
    exact_hall(text(lines))
}

fn halls_of(limit: u32, days: &[Lines]) -> Group {
    group_of(limit, days.iter().map(hall_of).collect())
}

/// One ration that any slot of its day suits.
fn any_slot(slots: u32) -> Lines {
    day_of(slots, 1, 1, &[[1, slots, 1]])
}

/// One blower busy throughout the day.
fn throughout(slots: u32) -> Lines {
    day_of(slots, 1, 0, &[[1, slots, slots]])
}

/// Halls that each check refuses, 10 by each buffer.
fn refused_halls() -> Vec<Hall> {
    let sheets = SHEET_CHECKS.into_iter().flat_map(refused_by);
    let mut halls: Vec<Hall> = sheets.map(exact_hall).collect();
    let day = hall_of(&any_slot(4));
    halls.push(Hall {
        listing_bytes: PLAN_BUFFER - 1,
        ..day.clone()
    });
    halls.push(Hall {
        placing_words: PLACING_WORDS - 1,
        ..day
    });
    halls
}

/// One to four halls, each planned, held or refused: under limit 1 a hall that is planned
/// takes a slot from those after it. Again with two blowers in a hall, where a hall may be
/// held by the limit alone.
fn combined() -> Vec<Group> {
    // Each hall goes through all refusals, two halls not side by side.
    let refusals = refused_halls();
    let from = |hall: usize| refusals.iter().cycle().skip(7 * hall);
    let mut refused: [_; MOST_HALLS] = std::array::from_fn(from);
    let sets = [
        (1, 1..=4, [any_slot(4), held_day()]),
        (
            3,
            4..=4,
            [
                first_day(),
                day_of(3, 2, 1, &[[2, 3, 2], [2, 2, 1], [2, 2, 1]]),
            ],
        ),
    ];
    let mut groups = Vec::new();
    for (limit, sizes, days) in sets {
        for size in sizes {
            for combination in 0..3_usize.pow(size) {
                let halls = (0..size).map(|i| match combination / 3_usize.pow(i) % 3 {
                    2 => refused[i as usize].next().expect("they go round").clone(),
                    kind => hall_of(&days[kind]),
                });
                groups.push(group_of(limit, halls.collect()));
            }
        }
    }
    groups
}

/// Limits and numbers of halls at their ends and beyond, with sheets that are planned, and
/// with faults and short buffers, before which 14 comes.
fn ends() -> Vec<Group> {
    let planned = halls_of(1, &vec![any_slot(4); MOST_HALLS]).lent;
    let faulty = group_of(1, refused_halls().into_iter().rev().take(4).collect()).lent;
    let mut ends = Vec::new();
    for limit in [0, 1, MOST_LIMIT, MOST_LIMIT + 1, u32::MAX] {
        for halls in [0, 1, 4, 5, u32::MAX] {
            ends.push((limit, halls));
        }
    }
    ends.extend(ODD_LIMITS.map(|limit| (limit, 2)));
    ends.extend(ODD_HALLS.map(|halls| (2, halls)));
    let mut groups = Vec::new();
    for (limit, halls) in ends {
        for lent in [&planned, &faulty] {
            groups.push(Group {
                limit,
                halls,
                lent: lent.clone(),
            });
        }
    }
    groups
}

/// Each limit on four halls of eight blowers, all of which a hall needs in its last slots.
fn limits() -> Vec<Group> {
    let windows = [[[1, 2, 1]; 6], [[2, 3, 2]; 6]].concat();
    let day = day_of(3, 8, 1, &windows);
    (1..=MOST_LIMIT)
        .map(|limit| halls_of(limit, &vec![day.clone(); MOST_HALLS]))
        .collect()
}

/// Halls whose days end at different slots, each after each.
fn lengths() -> Vec<Group> {
    let slots = [1, 2, 3, MOST_SLOTS - 1, MOST_SLOTS];
    let mut groups = Vec::new();
    for first in slots {
        for second in slots {
            let last = any_slot(MOST_SLOTS);
            let days = [throughout(first), any_slot(second), last.clone()];
            groups.push(halls_of(1, &days));
            let days = [any_slot(first), throughout(second), last];
            groups.push(halls_of(1, &days));
            let days = [throughout(first), throughout(second), throughout(first)];
            groups.push(halls_of(2, &days));
        }
    }
    groups
}

/// Buffers of length 0, one too short, as long as five columns took, and longer for each of
/// four halls, of which the others have just enough; also under a sheet that is held, and one that is refused.
fn buffers() -> Vec<Group> {
    let listings = [
        0,
        PLACING_WORDS,
        FIVE_COLUMN_PLAN,
        PLAN_BUFFER - LINE,
        PLAN_BUFFER - 1,
        PLAN_BUFFER + 1,
        LONGEST_LISTING,
    ];
    let placings = [
        0,
        PLACING_WORDS / WORD,
        PLACING_WORDS - 1,
        PLACING_WORDS + 1,
        LONGEST_PLACING,
    ];
    let mut lengths: Vec<(usize, usize)> = Vec::new();
    lengths.extend(listings.map(|bytes| (bytes, PLACING_WORDS)));
    lengths.extend(placings.map(|words| (PLAN_BUFFER, words)));
    lengths.push((0, 0));
    lengths.push((LONGEST_LISTING, LONGEST_PLACING));
    let fault = with(first_day(), 2, 3, 0);
    let mut groups = Vec::new();
    for (listing_bytes, placing_words) in lengths {
        let lent = |lines: &Lines| Hall {
            sheet: text(lines),
            listing_bytes,
            placing_words,
        };
        for at in 0..MOST_HALLS {
            let mut halls = vec![hall_of(&any_slot(4)); MOST_HALLS];
            halls[at] = lent(&any_slot(4));
            groups.push(group_of(1, halls));
        }
        let others = [lent(&held_day()), hall_of(&any_slot(3)), lent(&fault)];
        groups.push(group_of(1, others.to_vec()));
    }
    groups
}

/// Bytes of a word.
const WORD: usize = 8;

/// Fewer halls than are lent a sheet and buffers.
fn absent() -> Vec<Group> {
    let days = [any_slot(3), first_day(), held_day(), any_slot(96)];
    let all = halls_of(2, &days);
    let few = |halls| Group {
        halls,
        ..all.clone()
    };
    (1..MOST_HALLS as u32).map(few).collect()
}

/// The days of document 01 after each other, under limits that bind for most.
fn pairs() -> Vec<Group> {
    let mut groups = Vec::new();
    for (i, first) in document_days().into_iter().enumerate() {
        for (j, second) in document_days().into_iter().enumerate() {
            let limit = 1 + (i + j) as u32 % 3;
            groups.push(halls_of(limit, &[first.clone(), second]));
        }
    }
    groups
}

/// Days with great tanks and wake costs, each with itself, under a limit that is enough for one
/// of them.
fn wide() -> Vec<Group> {
    let days = wide_days().into_iter();
    days.map(|day| halls_of(day[0][1], &[day.clone(), day]))
        .collect()
}

/// Halls of the most slots, blowers and rations: eight blowers busy all day in each, under
/// a limit that does and one that lacks one; the full day; and whole-day windows of less
/// and less volume, so that a hall can take what the others leave.
fn large() -> Vec<Group> {
    let settled = settled_days();
    let whole_day = |volume| day_of(MOST_SLOTS, 8, 3, &[[1, MOST_SLOTS, volume]; 64]);
    let volumes = [9, 5, 3, 2].map(whole_day);
    let full = || vec![full_day(); MOST_HALLS];
    vec![
        halls_of(MOST_LIMIT, &settled[..4]),
        halls_of(MOST_LIMIT - 1, &settled[..4]),
        halls_of(16, &[&settled[5..7], &settled[10..12]].concat()),
        halls_of(9, &[&settled[10..12], &settled[5..7]].concat()),
        halls_of(MOST_LIMIT, &full()),
        halls_of(12, &full()),
        halls_of(11, &volumes),
        halls_of(13, &volumes),
        halls_of(19, &volumes),
    ]
}
