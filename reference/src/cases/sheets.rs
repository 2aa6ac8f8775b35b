//! Sheets that several streams share: the days of document 01, days at the limits, and
//! sheets that each check of a sheet refuses.

use super::meals::{three_meals_day, touching_day};
use crate::damage::five_columns;
use crate::sheet::{line_text, FIELD, LINE, LONGEST_SHEET, MOST_TANK, MOST_WAKE};

/// The numbers by which a sheet itself is refused.
pub const SHEET_CHECKS: [u32; 10] = [1, 2, 3, 4, 5, 6, 7, 8, 9, 13];

/// A sheet as its lines of four numbers, the head line first.
pub type Lines = Vec<[u32; 4]>;

pub fn text(lines: &[[u32; 4]]) -> Vec<u8> {
    lines.iter().flat_map(|&line| line_text(line)).collect()
}

/// The first sheet of document 01.
pub fn first_day() -> Lines {
    vec![[4, 2, 2, 3], [1, 1, 2, 2], [2, 1, 4, 2], [3, 2, 3, 1]]
}

/// A sheet of document 01 that is well-formed and has no sound placing.
pub fn held_day() -> Lines {
    vec![[3, 1, 1, 2], [1, 1, 2, 2], [2, 2, 3, 2]]
}

/// The tank of the full day's ration i: 16, 31, .., 601, then 10,001, 20,001, .., 230,001,
/// and the greatest.
pub fn full_day_tank(i: u32) -> u32 {
    match i {
        1..=40 => 15 * i + 1,
        41..=63 => 10_000 * (i - 40) + 1,
        _ => MOST_TANK,
    }
}

/// 96 slots, 8 blowers, the greatest wake cost, 64 rations up to the greatest tank.
pub fn full_day() -> Lines {
    let mut lines = vec![[96, 8, MOST_WAKE, 64]];
    for i in 1..=64 {
        let tank = full_day_tank(i);
        let first = 1 + (i * 37) % 90;
        let last = (first + (i * 11) % 60).min(96);
        let volume = 1 + (i * 5) % (last - first + 1);
        lines.push([tank, first, last, volume]);
    }
    lines
}

/// A day with some line's field set to another value.
pub fn with(mut lines: Lines, line: usize, field: usize, value: u32) -> Lines {
    lines[line][field] = value;
    lines
}

/// One ration that any slot of its day suits: idle for two slots, then busy.
pub fn idle_first_day() -> Lines {
    vec![[3, 1, 1, 1], [1, 1, 3, 1]]
}

/// The days of document 01 that are well-formed, and two more that tell Parallel
/// Left-to-Right from blowers treated from 1 up and from rations placed one by one.
pub fn document_days() -> Vec<Lines> {
    vec![
        first_day(),
        held_day(),
        vec![[3, 2, 1, 3], [1, 1, 2, 1], [2, 1, 2, 1], [3, 1, 3, 3]],
        vec![[3, 1, 4, 0]],
        vec![[3, 1, 3, 0]],
        vec![[1, 1, 200, 1], [1, 1, 1, 1]],
        idle_first_day(),
        vec![[3, 1, 2, 2], [1, 1, 1, 1], [2, 3, 3, 1]],
        vec![[3, 1, 1, 2], [1, 1, 1, 1], [2, 3, 3, 1]],
        vec![[2, 2, 1, 2], [1, 1, 2, 1], [2, 1, 2, 1]],
        vec![[3, 1, 1, 3], [1, 2, 3, 1], [2, 1, 3, 1], [3, 1, 2, 1]],
    ]
}

/// The days of document 01 beyond the limits: 97 slots, 9 blowers, wake cost 2,001.
pub fn beyond_days() -> Vec<Lines> {
    vec![
        vec![[97, 8, MOST_WAKE, 0]],
        vec![[96, 9, MOST_WAKE, 0]],
        vec![[96, 8, MOST_WAKE + 1, 0]],
    ]
}

/// Days for six columns (request 110): wake costs at which a stretch of 94 slots within the
/// day is off, and at which it is on, up to the greatest; and tanks of every width, among
/// them those that five columns do not hold, all in one slot and with several meals.
pub fn wide_days() -> Vec<Lines> {
    let wakes = [94, 95, 96, 199, 200, 201, 999, 1_000, 1_999, MOST_WAKE];
    let waking = wakes.map(|wake| day_of(96, 1, wake, &[[1, 1, 1], [96, 96, 1]]));
    let tanks = [9, 99, 999, 9_999, 99_999, 100_000, MOST_TANK - 1, MOST_TANK];
    let feeds = tanks.map(|tank| [tank, 2, 2, 1]);
    let tanks_day = [vec![[3, 8, MOST_WAKE, 8]], feeds.to_vec()].concat();
    let meals_day = vec![
        [9, 1, 2, 4],
        [99_999, 1, 2, 1],
        [100_000, 3, 5, 2],
        [MOST_TANK, 2, 3, 1],
        [MOST_TANK, 7, 9, 3],
    ];
    [waking.to_vec(), vec![tanks_day, meals_day]].concat()
}

/// Rations `windows` lists by first slot, last slot and volume, with tanks 1, 2, ..
pub fn day_of(slots: u32, blowers: u32, wake: u32, windows: &[[u32; 3]]) -> Lines {
    let head = [slots, blowers, wake, windows.len() as u32];
    let rations = windows
        .iter()
        .zip(1..)
        .map(|(&[first, last, volume], tank)| [tank, first, last, volume]);
    [head].into_iter().chain(rations).collect()
}

/// The fewest and the most slots, blowers, wake cost and rations, each with each:
/// whole-day windows, with volumes of 1 and of the whole window.
pub fn limit_days() -> Vec<Lines> {
    let mut days = Vec::new();
    for slots in [1, 96] {
        for blowers in [1, 8] {
            for wake in [0, MOST_WAKE] {
                days.push(day_of(slots, blowers, wake, &[]));
                for n in [1, 8, 64] {
                    days.push(day_of(slots, blowers, wake, &vec![[1, slots, 1]; n]));
                    days.push(day_of(slots, blowers, wake, &vec![[1, slots, slots]; n]));
                }
            }
        }
    }
    days
}

/// Days of 96 slots with volumes equal to the windows, so that the sheet leaves no
/// choice: eight blowers do, and seven do not.
pub fn settled_days() -> Vec<Lines> {
    // Eight rations in each part of the day: every slot has all blowers busy.
    let parts = |i: u32| [i / 8 * 12 + 1, i / 8 * 12 + 12, 12];
    // Eight rations in every other slot of the morning.
    let every_other = |i: u32| [i / 8 * 2 + 1, i / 8 * 2 + 1, 1];
    // A window begins at each slot: a load that rises to 8 and falls again.
    let stairs = |i: u32| [i + 1, i + 8, 8];
    let mut days = Vec::new();
    for window in [parts, every_other, stairs] {
        let windows: Vec<[u32; 3]> = (0..64).map(window).collect();
        for (blowers, wake) in [(8, 0), (8, 1), (8, 2), (8, MOST_WAKE), (7, 1)] {
            days.push(day_of(96, blowers, wake, &windows));
        }
    }
    days
}

/// The shortest sheet in good form that is too long.
pub fn too_long_sheet() -> Vec<u8> {
    let lines = LONGEST_SHEET as u32 / LINE as u32;
    let mut bytes = line_text([96, 8, MOST_WAKE, lines]).to_vec();
    for i in 1..=lines {
        bytes.extend(line_text([i, 1, 2, 1]));
    }
    bytes
}

/// Bytes of a line in five columns, as lines were before request 110, and of the least plan
/// buffer of then.
pub const FIVE_COLUMN_LINE: usize = 21;
pub const FIVE_COLUMN_PLAN: usize = 32_303;

/// A day in five columns.
pub fn in_five_columns(lines: &[[u32; 4]]) -> Vec<u8> {
    five_columns(&text(lines))
}

/// A day of so many lines.
pub fn day_of_lines(lines: usize) -> Lines {
    let slots = (1..=96).cycle().take(lines - 1);
    let windows: Vec<[u32; 3]> = slots.map(|slot| [slot, slot, 1]).collect();
    day_of(96, 8, 1, &windows)
}

/// Sheets that check `number`, one of `SHEET_CHECKS`, refuses: the first day with a fault or
/// in five columns, and days whose meals overlap.
pub fn refused_by(number: u32) -> Vec<Vec<u8>> {
    let bytes = text(&first_day());
    let spoilt = |at: usize, byte: u8| {
        let mut spoilt = bytes.clone();
        spoilt[at] = byte;
        spoilt
    };
    let changed = |line, field, values: &[u32]| {
        let change = |&value| text(&with(first_day(), line, field, value));
        values.iter().map(change).collect::<Vec<_>>()
    };
    match number {
        1 => vec![
            vec![],
            bytes[..LINE - 1].to_vec(),
            bytes[..bytes.len() - 1].to_vec(),
            [&bytes[..], b"\n"].concat(),
            in_five_columns(&first_day()),
        ],
        2 => vec![
            spoilt(0, b'0'),
            spoilt(2 * LINE + FIELD - 1, b'x'),
            spoilt(bytes.len() - 1, b'\r'),
            // 25 lines of five columns are as long as 21 of six.
            in_five_columns(&day_of_lines(25)),
        ],
        3 => changed(0, 0, &[0, 97]),
        4 => changed(0, 1, &[0, 9]),
        5 => changed(0, 2, &[MOST_WAKE + 1]),
        6 => changed(0, 3, &[2, 4, 65]),
        7 => [changed(1, 0, &[0, MOST_TANK + 1]), changed(3, 0, &[1])].concat(),
        8 => [changed(1, 1, &[0, 3]), changed(2, 2, &[5])].concat(),
        9 => [changed(2, 3, &[0]), changed(3, 3, &[3])].concat(),
        13 => vec![
            text(&with(first_day(), 2, 0, 1)),
            text(&with(first_day(), 3, 0, 2)),
            text(&with(touching_day(), 2, 1, 2)),
            text(&with(three_meals_day(), 3, 1, 5)),
        ],
        _ => panic!("no sheet is refused by number {number} alone"),
    }
}

#[cfg(test)]
mod tests {
    use super::*;
    use crate::listing::program;
    use crate::method;
    use crate::sheet::read;

    #[test]
    fn each_check_refuses_its_sheets() {
        for number in SHEET_CHECKS {
            for bytes in refused_by(number) {
                assert_eq!(read(&bytes).map_err(|r| r.number), Err(number));
            }
        }
        assert_eq!(read(&too_long_sheet()).map_err(|r| r.number), Err(1));
        for (lines, number) in beyond_days().iter().zip(3..) {
            assert_eq!(read(&text(lines)).map_err(|r| r.number), Err(number));
        }
    }

    #[test]
    fn the_other_days_are_well_formed() {
        let days = [document_days(), limit_days(), settled_days(), wide_days()].concat();
        assert!(days.iter().all(|lines| read(&text(lines)).is_ok()));
        assert_eq!(text(&day_of_lines(25)).len(), 25 * 25);
        assert!(read(&text(&day_of_lines(25))).is_ok());
        assert_eq!(
            in_five_columns(&day_of_lines(25)).len(),
            25 * FIVE_COLUMN_LINE
        );
        assert!(read(&text(&full_day())).is_ok());
    }

    /// The stretch within the day is off where it is as long as the wake cost.
    #[test]
    fn wide_days_are_planned() {
        let energies = wide_days().into_iter().take(10).map(|lines| {
            let sheet = read(&text(&lines)).expect("accepted");
            let plan = method::plan(&sheet).expect("planned");
            (plan.energy, plan.starts)
        });
        let on = |wake: u32| (96 + wake, 1);
        let expected = [
            (2 + 2 * 94, 2),
            on(95),
            on(96),
            on(199),
            on(200),
            on(201),
            on(999),
            on(1_000),
            on(1_999),
            on(2_000),
        ];
        assert!(energies.eq(expected));
        for lines in wide_days() {
            assert!(program(&text(&lines)).starts_with(b"PLAN\n"));
        }
    }
}
