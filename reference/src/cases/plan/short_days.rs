//! Days for equally cut rations (request 111): a day for each share, rations that are cut to 0,
//! volumes that are rounded, several meals, wake costs and wide numbers.

use crate::cases::meals::{full_meal_days, meal_days};
use crate::cases::sheets::{
    day_of, document_days, full_day, limit_days, settled_days, with, Lines,
};
use crate::sheet::{MOST_BLOWERS, MOST_RATIONS, MOST_SLOTS, MOST_TANK, MOST_WAKE};

pub fn days() -> Vec<Lines> {
    [
        document_days(),
        a_day_for_each_share(),
        unfed_days(),
        rounded_days(),
        short_meal_days(),
        wake_days(),
        extreme_days(),
        large_days(),
    ]
    .concat()
}

/// For each share from 1 to 100 a day that has it, of as few rations as can be. All windows are
/// the whole day and all volumes are the same, so that the cut rations fit exactly where there
/// are no more feedings than blowers and slots: each ration can have D × m / n of them.
fn a_day_for_each_share() -> Vec<Lines> {
    let mut days = vec![None; 100];
    for n in 2..=MOST_RATIONS {
        for slots in 1..=MOST_SLOTS {
            for volume in 1..=slots {
                for blowers in 1..=MOST_BLOWERS.min(n - 1) {
                    let each = slots * blowers / n;
                    // One below the least share that gives a ration one feeding more.
                    let share = match each < volume {
                        true => (100 * (each + 1)).div_ceil(volume) - 1,
                        false => 100,
                    };
                    days[share as usize - 1].get_or_insert([slots, blowers, share % 7, n, volume]);
                }
            }
        }
    }
    let lines = |[slots, blowers, wake, n, volume]: [u32; 5]| {
        day_of(slots, blowers, wake, &vec![[1, slots, volume]; n as usize])
    };
    let found = days
        .into_iter()
        .map(|day| day.expect("each share has a day"));
    found.map(lines).collect()
}

/// Days on which rations are cut to 0: every one; the first, one between others and the last;
/// and every other one of 64, from the first on and from the second on.
fn unfed_days() -> Vec<Lines> {
    let (unfed, early, late) = ([1, 3, 1], [1, 2, 2], [2, 3, 2]);
    let every_other = |from: u32| {
        let windows: Vec<[u32; 3]> = (0..MOST_RATIONS)
            .map(|i| match (i + from) % 2 {
                0 => [1, 1, 1],
                _ => [1, 8, 2],
            })
            .collect();
        day_of(8, 8, 3, &windows)
    };
    vec![
        day_of(1, 1, 0, &[[1, 1, 1]; 2]),
        day_of(1, 8, 5, &[[1, 1, 1]; 9]),
        day_of(3, 2, 2, &[[2, 2, 1]; 64]),
        // Share 2 leaves each of 64 rations one feeding, and share 1 none.
        day_of(50, 1, 0, &[[1, 50, 50]; 64]),
        day_of(63, 1, 4, &[[1, 63, 63]; 64]),
        day_of(3, 1, 0, &[unfed, early, late]),
        day_of(3, 1, 0, &[early, unfed, late]),
        day_of(3, 1, 0, &[early, late, unfed]),
        day_of(3, 1, 0, &[unfed, unfed, late, unfed, early, unfed]),
        every_other(0),
        every_other(1),
    ]
}

/// Days whose answer rests on how a volume is rounded. Where the volumes differ, they lose a
/// feeding at different shares.
fn rounded_days() -> Vec<Lines> {
    let up_to = |most: u32, blowers| {
        let windows: Vec<[u32; 3]> = (1..=most).map(|volume| [1, most, volume]).collect();
        day_of(most, blowers, 1, &windows)
    };
    let mut days = vec![
        // Shares 34 to 66 leave one feeding each, 67 to 99 two.
        day_of(3, 1, 0, &[[1, 3, 3]; 3]),
        day_of(3, 2, 0, &[[1, 3, 3]; 4]),
        day_of(3, 1, 0, &[[1, 3, 3]; 4]),
        // 50 × 51 / 100 is 25 and a half, 50 × 52 / 100 is 26.
        day_of(50, 1, 0, &[[1, 50, 50]; 2]),
        // 96 × 25 / 100 is 24, and 96 × 26 / 100 nearly 25; 95 × 25 / 100 is nearly 24.
        day_of(96, 1, 2, &[[1, 96, 96]; 4]),
        day_of(95, 1, 2, &[[1, 95, 95]; 4]),
        // Short in slots 2 and 3 alone, though the day has slots enough for all: share 49 leaves
        // one feeding, of the last ration.
        day_of(9, 1, 1, &[[2, 3, 2], [2, 3, 2], [2, 3, 2], [5, 9, 4]]),
        // Share 99 takes a feeding from every ration, and share 98 another one from those with
        // more than 50.
        day_of(68, 1, 0, &[[1, 68, 51], [1, 68, 20]]),
        day_of(96, 2, 7, &[[1, 96, 96], [1, 60, 51], [40, 96, 50]]),
    ];
    days.extend([6, 13, 24].map(|most| up_to(most, 1)));
    days.extend([6, 13, 24].map(|most| up_to(most, 3)));
    days
}

/// Days with several meals for a tank: the first, the second or the last of them is cut to 0, or
/// all but the last; days that fit; and days of 96 slots, which fit or lack a blower.
fn short_meal_days() -> Vec<Lines> {
    let day = |meals: &[[u32; 4]]| {
        let head = [9, 1, 2, meals.len() as u32];
        [&[head], meals].concat()
    };
    let mut days = vec![
        day(&[[5, 1, 2, 1], [5, 3, 6, 4], [6, 3, 6, 2]]),
        day(&[[5, 1, 3, 2], [5, 4, 4, 1], [5, 5, 9, 4], [6, 5, 8, 3]]),
        day(&[[5, 1, 3, 3], [5, 7, 8, 1], [8, 1, 3, 3], [8, 7, 7, 1]]),
        day(&[[5, 1, 1, 1], [5, 2, 2, 1], [5, 3, 9, 7], [6, 1, 9, 2]]),
    ];
    days.extend(meal_days());
    days.extend(full_meal_days());
    days
}

/// Days that are cut to feedings in the first two, two middle and the last two slots. The idle
/// stretches between them are longer than the wake cost, as long and shorter; where the wake cost
/// is the greatest, so are the tanks.
fn wake_days() -> Vec<Lines> {
    let mut days = Vec::new();
    for (slots, blowers, each) in [(12, 1, 2), (12, 2, 3), (96, 1, 2), (96, 3, 5)] {
        let middle = slots / 2 - 1;
        let windows: Vec<[u32; 3]> = [1, middle, slots - 1]
            .into_iter()
            .flat_map(|first| vec![[first, first + 1, 2]; each])
            .collect();
        // The slots between two feedings of blower 1.
        let (early, late) = (middle - 3, slots - 1 - (middle + 2));
        for wake in [0, 1, early, early + 1, late, late + 1, MOST_WAKE] {
            let day = day_of(slots, blowers, wake, &windows);
            days.push(match wake {
                MOST_WAKE => with_great_tanks(day),
                _ => day,
            });
        }
    }
    days
}

/// The same rations with tanks up to the greatest.
fn with_great_tanks(mut day: Lines) -> Lines {
    let n = day.len() as u32 - 1;
    for (line, tank) in day[1..].iter_mut().zip(MOST_TANK - n + 1..) {
        line[0] = tank;
    }
    day
}

/// Days at the limits, of which one wake cost is enough here.
fn extreme_days() -> Vec<Lines> {
    let days = limit_days().into_iter();
    days.filter(|day| day[0][2] == MOST_WAKE).collect()
}

/// Days of 96 slots and 64 rations with a blower too few, and with few blowers.
fn large_days() -> Vec<Lines> {
    let lacking = settled_days().into_iter().filter(|day| day[0][1] == 7);
    let mut days: Vec<Lines> = lacking.collect();
    days.push(full_day());
    days.extend([1, 2, 4].map(|blowers| with(full_day(), 0, 1, blowers)));
    days
}

#[cfg(test)]
mod tests {
    use super::*;
    use crate::cases::sheets::text;
    use crate::method::{self, State};
    use crate::share::{cut_sheet, greatest_share};
    use crate::sheet::{read, Ration, Sheet};

    fn sheet(lines: &Lines) -> Sheet {
        read(&text(lines)).expect("accepted")
    }

    /// The sheet cut to its share.
    fn cut(lines: &Lines) -> Sheet {
        let sheet = sheet(lines);
        cut_sheet(&sheet, greatest_share(&sheet))
    }

    fn shares(days: &[Lines]) -> Vec<u32> {
        days.iter().map(|day| greatest_share(&sheet(day))).collect()
    }

    #[test]
    fn each_share_has_its_day() {
        let expected: Vec<u32> = (1..=100).collect();
        assert_eq!(shares(&a_day_for_each_share()), expected);
    }

    /// Which rations of a day are fed, as a text of digits: 1 where one is.
    fn fed(lines: &Lines) -> String {
        let digit = |ration: &Ration| if ration.volume == 0 { '0' } else { '1' };
        cut(lines).rations.iter().map(digit).collect()
    }

    #[test]
    fn the_shares_of_rounded_days() {
        let days = rounded_days();
        assert_eq!(shares(&days[..9]), [66, 66, 33, 51, 26, 25, 49, 98, 98]);
        // Windows of the whole day: the cut volumes fit where their sum does.
        for day in &days[9..] {
            let [slots, blowers, ..] = day[0];
            let cut_sum = |share| day[1..].iter().map(move |line| line[3] * share / 100).sum();
            let fits = |&share: &u32| slots * blowers >= cut_sum(share);
            assert_eq!(
                (0..=100).rev().find(fits),
                Some(greatest_share(&sheet(day)))
            );
        }
        assert!(shares(&days[9..]).iter().all(|&share| share < 100));
    }

    #[test]
    fn some_rations_are_cut_to_0() {
        let days = unfed_days();
        let expected = [99, 99, 99, 1, 1, 99, 99, 99, 99, 99, 99];
        assert_eq!(shares(&days), expected);
        assert!(days[..5].iter().all(|day| !fed(day).contains('1')));
        let some: Vec<String> = days[5..9].iter().map(fed).collect();
        assert_eq!(some, ["011", "101", "110", "001010"]);
        assert_eq!(fed(&days[9]), "01".repeat(32));
        assert_eq!(fed(&days[10]), "10".repeat(32));
    }

    #[test]
    fn meals_are_cut_to_0() {
        let days = short_meal_days();
        assert_eq!(shares(&days[..4]), [99, 99, 66, 99]);
        let some: Vec<String> = days[..4].iter().map(fed).collect();
        assert_eq!(some, ["011", "1011", "1010", "0011"]);
    }

    /// Between the feedings of a cut day blower 1 is off, or idle and on.
    #[test]
    fn idle_stretches_are_on_and_off() {
        for days in wake_days().chunks(7) {
            let last = days[0][0][0];
            let inner_states = |day: &Lines| -> Vec<State> {
                let plan = method::plan(&cut(day)).expect("planned");
                let idle = plan.stretches.iter().filter(|s| s.state != State::Busy);
                let own = idle.filter(|s| s.blower == 1 && s.first > 1 && s.last < last);
                own.map(|s| s.state).collect()
            };
            assert!(shares(days).iter().all(|&share| share == 99));
            let states: Vec<Vec<State>> = days.iter().map(inner_states).collect();
            let (off, on) = (State::Off, State::IdleOn);
            assert_eq!(states[0], [off, off]);
            assert_eq!(states[6], [on, on]);
            assert!(states[2..6].contains(&vec![on, off]));
        }
    }

    #[test]
    fn large_days_are_held() {
        let days = large_days();
        assert!(shares(&days).iter().all(|&share| share < 100));
        assert!(days.iter().all(|day| day[0][0] == 96 && day[0][3] == 64));
    }
}
