//! Days for the causes of stretches: small ones settled by hand, and days whose listings are
//! near or beyond the longest.

use crate::cases::sheets::{day_of, Lines};
use crate::sheet::MOST_WAKE;

/// Small days settled by hand in `tests/causes.rs`.
pub fn cause_days() -> Vec<Lines> {
    vec![
        // A low above a high where there is a shortfall too.
        day_of(1, 2, 1, &[[1, 1, 1], [1, 1, 1]]),
        // Sets with more than the slot after the stretch, and one with a slot left out.
        day_of(3, 2, 0, &[[1, 1, 1], [1, 1, 1], [2, 3, 1], [2, 2, 1]]),
        day_of(5, 1, 1, &[[1, 1, 1], [1, 5, 1], [4, 4, 1]]),
        vec![[4, 1, 1, 2], [5, 1, 2, 1], [5, 3, 4, 1]],
        // No entry at all.
        day_of(96, 8, MOST_WAKE, &[]),
        day_of(1, 1, 0, &[]),
    ]
}

/// The numbers of a long day: blowers, v, stops and the rations of the last stop; and the
/// window of a late ration, if there is one.
pub type LongDay = ([u32; 4], Option<[u32; 2]>);

/// A day with long sets. In slot 1 and in every second slot after slot v + 1 each blower
/// has a ration of that slot alone, in the last of these stops only `last` blowers; besides,
/// as many rations as there are blowers have the whole day and a volume of v. These feed the
/// slots 2 to v + 1, and all of them belong to the set of every busy stretch. A late ration
/// has a volume of 1 and a window after all that; each slot of it gives the listing a line
/// more.
pub fn long_day(([blowers, v, stops, last], late): LongDay) -> Lines {
    let mut windows = vec![[1, 1, 1]; blowers as usize];
    windows.extend(vec![[1, 96, v]; blowers as usize]);
    for stop in 1..=stops {
        let slot = v + 1 + 2 * stop;
        let rations = if stop == stops { last } else { blowers };
        windows.extend(vec![[slot, slot, 1]; rations as usize]);
    }
    windows.extend(late.map(|[first, last]| [first, last, 1]));
    day_of(96, blowers, 1, &windows)
}

/// Long days whose listings have exactly as many lines as there is room for, and one less.
pub const WHOLE_DAYS: [LongDay; 2] = [([4, 63, 9, 3], Some([90, 96])), ([5, 83, 6, 5], None)];

/// Long days whose listings are cut: after exactly as many lines as there is room for;
/// before an entry, the last one, that is one line too long; before one of two lines, of
/// which only the first would fit; where shorter entries after the one that does not fit
/// would fit; with nearly the most rations, and with the most.
pub const CUT_DAYS: [LongDay; 6] = [
    ([4, 63, 9, 3], Some([89, 95])),
    ([4, 63, 9, 3], Some([89, 96])),
    ([6, 83, 6, 6], None),
    ([7, 85, 5, 4], None),
    ([3, 57, 19, 3], None),
    ([8, 83, 6, 8], None),
];

#[cfg(test)]
mod tests {
    use super::*;
    use crate::cases::sheets::text;
    use crate::causes::{entries, listing, CAUSES_BUFFER};
    use crate::sheet::{read, LINE};

    /// How many lines the listing of a long day has, and how many are kept.
    fn lines(day: LongDay) -> (usize, usize) {
        let sheet = read(&text(&long_day(day))).expect("accepted");
        let entries = entries(&sheet).expect("planned");
        let (text, cut) = listing(&entries);
        let whole = entries.iter().map(|e| 1 + e.slots.len()).sum();
        assert_eq!(cut, text.len() < whole * LINE);
        (whole, text.len() / LINE)
    }

    #[test]
    fn listings_near_the_longest() {
        assert_eq!(CAUSES_BUFFER / LINE, 2_621);
        let whole = [(2_621, 2_621), (2_620, 2_620)];
        assert_eq!(WHOLE_DAYS.map(lines), whole);
        let cut = [
            (2_686, 2_621),
            (2_622, 2_613),
            (3_144, 2_620),
            (3_123, 2_587),
            (3_483, 2_568),
            (4_192, 2_620),
        ];
        assert_eq!(CUT_DAYS.map(lines), cut);
    }
}
