//! Sheets of all kinds, well-formed or not, to compare answers on. A kind's share of the run is set by what the
//! reference needs for it: a full sheet that is planned takes it most of a second.

use reference::damage::{damage_meal, damaged_sheet, five_columns};
use reference::draws::Draws;
use reference::generate::{
    any_sheet, full_sheet, held_full_sheet, held_sheet, jagged_sheet, tight_sheet, Sizes, FULL,
    MIDDLE, SMALL,
};
use reference::sheet::{field_text, line_text, FIELD, LINE, MOST_TANK};

/// A kind of sheet, and how many of it there are in each 10,000.
pub struct Kind {
    pub name: &'static str,
    pub share: u32,
    pub make: fn(&mut Draws) -> Vec<u8>,
}

pub const KINDS: [Kind; 21] = [
    kind("full, planned or held", 4, |d| full_sheet(d).text()),
    kind("full, held", 60, |d| held_full_sheet(d).text()),
    kind("causes with long sets", 10, long_sets),
    kind("any size", 40, |d| any_sheet(d, FULL).text()),
    kind("any size, tight", 40, |d| tight_sheet(d, FULL).text()),
    kind("any size, jagged", 40, |d| jagged_sheet(d, FULL).text()),
    kind("any size, held", 200, |d| held_sheet(d, FULL).text()),
    kind("any size, damaged", 200, |d| damaged_sheet(d, FULL)),
    kind("middle", 400, |d| any_sheet(d, MIDDLE).text()),
    kind("middle, tight", 300, |d| tight_sheet(d, MIDDLE).text()),
    kind("middle, jagged", 150, |d| jagged_sheet(d, MIDDLE).text()),
    kind("middle, held", 600, |d| held_sheet(d, MIDDLE).text()),
    kind("middle, damaged", 800, |d| damaged_sheet(d, MIDDLE)),
    kind("small", 1800, |d| any_sheet(d, SMALL).text()),
    kind("small, tight", 1500, |d| tight_sheet(d, SMALL).text()),
    kind("small, held", 1000, |d| held_sheet(d, SMALL).text()),
    kind("one field changed", 1200, one_field),
    kind("a meal changed", 600, meal_changed),
    kind("another length", 500, another_length),
    kind("five columns", 56, in_five_columns),
    kind("random bytes", 500, random_bytes),
];

pub(crate) const fn kind(name: &'static str, share: u32, make: fn(&mut Draws) -> Vec<u8>) -> Kind {
    Kind { name, share, make }
}

/// The kind of the sheet with this place in the run: the rarest first in each 10,000.
pub fn kind_at(place: usize) -> usize {
    kind_among(&KINDS, place)
}

/// The same of a run of other kinds.
pub(crate) fn kind_among(kinds: &[Kind], place: usize) -> usize {
    let mut left = place as u32 % 10_000;
    for (at, kind) in kinds.iter().enumerate() {
        if left < kind.share {
            return at;
        }
        left -= kind.share;
    }
    unreachable!("the shares add up to 10,000")
}

/// The numbers that the sheet with this place is made from, so that it can be made
/// again without those before it.
pub fn draws_at(place: usize) -> Draws {
    Draws::new((place as u32).wrapping_mul(2_654_435_769))
}

fn some_limits(draws: &mut Draws) -> Sizes {
    if draws.one_in(4) {
        MIDDLE
    } else {
        SMALL
    }
}

/// A sheet whose causes have long sets, so that their listing is near the longest or cut. Each blower has a ration in
/// slot 1 and in every second slot late in the day, fewer in the last of these, and as many rations have the whole day.
/// These feed the slots after slot 1, all of which are in the set of every busy stretch. Some windows and volumes are
/// then changed, so that sets differ; the sheet may be held.
pub fn long_sets(draws: &mut Draws) -> Vec<u8> {
    let blowers = draws.between(2, 8);
    let stops = 64 / blowers - 2 - draws.below(4);
    let volume = 95 - 2 * stops - draws.below(6);
    let own = |slot: u32| [slot, slot, 1];
    let mut windows = vec![own(1); blowers as usize];
    windows.extend(vec![[1, 96, volume]; blowers as usize]);
    for stop in 1..=stops {
        let some = if stop == stops {
            draws.between(1, blowers)
        } else {
            blowers
        };
        windows.extend(vec![own(volume + 1 + 2 * stop); some as usize]);
    }
    let rarity = draws.between(8, 64);
    let head = [96, blowers, draws.between(0, 12), windows.len() as u32];
    let mut bytes = line_text(head).to_vec();
    for ([mut first, mut last, mut volume], tank) in windows.into_iter().zip(1..) {
        if draws.one_in(rarity) {
            first = first.saturating_sub(draws.below(3)).max(1);
            last = (last + draws.below(3)).min(96);
            volume = (volume + draws.below(2)).min(last - first + 1);
        }
        bytes.extend(line_text([tank, first, last, volume]));
    }
    bytes
}

/// A well-formed sheet with one field of one line set: to a number at a limit, to one
/// near it, or to text that is no number.
fn one_field(draws: &mut Draws) -> Vec<u8> {
    const NUMBERS: [u32; 16] = [
        0, 1, 2, 8, 9, 64, 65, 96, 97, 200, 999, 2_000, 65_536, 99_999, 100_000, 250_000,
    ];
    const TEXTS: [&[u8; FIELD]; 16] = [
        b"      ", b"    01", b"    00", b"000000", b"   1  ", b"1     ", b"    -1", b"    +1",
        b" 1  1 ", b"\t    1", b"999999", b"     x", b"100001", b"000001", b" 00001", b"1    1",
    ];
    let limits = some_limits(draws);
    let mut bytes = any_sheet(draws, limits).text();
    let lines = bytes.len() / LINE;
    let line = if draws.one_in(3) {
        0
    } else {
        draws.index(lines)
    };
    let at = line * LINE + draws.index(4) * FIELD;
    let field = &mut bytes[at..at + FIELD];
    if draws.one_in(3) {
        field.copy_from_slice(TEXTS[draws.index(TEXTS.len())]);
    } else {
        let near = NUMBERS[draws.index(NUMBERS.len())] + draws.below(3);
        field.copy_from_slice(&field_text(near.saturating_sub(1)));
    }
    bytes
}

/// A well-formed sheet with a ration's tank or first slot set near to those of the line
/// before it.
fn meal_changed(draws: &mut Draws) -> Vec<u8> {
    let limits = some_limits(draws);
    let mut bytes = any_sheet(draws, limits).text();
    damage_meal(draws, &mut bytes);
    bytes
}

/// A well-formed sheet cut to any length or made longer; once in a while past the
/// longest that is read.
fn another_length(draws: &mut Draws) -> Vec<u8> {
    let limits = some_limits(draws);
    let mut bytes = any_sheet(draws, limits).text();
    let whole_lines = draws.one_in(4);
    let mut length = draws.index(bytes.len() + 3 * LINE);
    if draws.one_in(50) {
        length = 65_480 + draws.index(80);
    }
    if whole_lines {
        length -= length % LINE;
    }
    while bytes.len() < length {
        bytes.extend(line_text([1 + draws.below(MOST_TANK), 1, 1, 1]));
    }
    bytes.truncate(length);
    bytes
}

/// A sheet with a column less in each field, as sheets were before request 110. Now and then it has 25 lines, or 50,
/// and so it is as long as whole lines of six columns.
fn in_five_columns(draws: &mut Draws) -> Vec<u8> {
    let limits = some_limits(draws);
    let mut bytes = any_sheet(draws, limits).text();
    if draws.one_in(4) {
        let lines = 25 * draws.between(1, 2) as usize;
        bytes = bytes.iter().copied().cycle().take(lines * LINE).collect();
    }
    five_columns(&bytes)
}

/// Bytes at random: of all values, or of those that a sheet is made of.
fn random_bytes(draws: &mut Draws) -> Vec<u8> {
    const LIKELY: &[u8] = b"     0123456789 \n";
    let lines = draws.index(8);
    let mut length = lines * LINE;
    if draws.one_in(4) {
        length += draws.index(LINE);
    }
    let any = draws.one_in(3);
    let mut bytes: Vec<u8> = (0..length)
        .map(|_| match any {
            true => draws.below(256) as u8,
            false => LIKELY[draws.index(LIKELY.len())],
        })
        .collect();
    if draws.one_in(2) {
        for line in bytes.chunks_exact_mut(LINE) {
            line[LINE - 1] = b'\n';
        }
    }
    bytes
}

#[cfg(test)]
mod tests {
    use super::*;
    use reference::causes::{entries, listing};
    use reference::sheet::read;

    #[test]
    fn every_place_has_a_kind() {
        let all: u32 = KINDS.iter().map(|kind| kind.share).sum();
        assert_eq!(all, 10_000);
        assert_eq!(kind_at(0), 0);
        assert_eq!(kind_at(9_999), KINDS.len() - 1);
    }

    #[test]
    fn long_sets_make_listings_near_the_longest_or_cut() {
        let draws = &mut Draws::new(1);
        let (mut near, mut cut) = (0, 0);
        for _ in 0..40 {
            let sheet = read(&long_sets(draws)).expect("accepted");
            if let Ok(entries) = entries(&sheet) {
                let (text, is_cut) = listing(&entries);
                near += u32::from(!is_cut && text.len() > 40_000);
                cut += u32::from(is_cut);
            }
        }
        assert!(near >= 8 && cut >= 8, "{near} near, {cut} cut");
    }

    #[test]
    fn sheets_in_five_columns_are_refused_by_length_or_form() {
        let draws = &mut Draws::new(1);
        let mut numbers = [0; 3];
        for _ in 0..200 {
            let refusal = read(&in_five_columns(draws)).expect_err("five columns");
            numbers[refusal.number as usize] += 1;
        }
        assert!(numbers[1] > 100 && numbers[2] > 20, "{numbers:?}");
    }

    #[test]
    fn meals_changed_are_accepted_too_early_or_out_of_order() {
        let draws = &mut Draws::new(1);
        let numbers: Vec<u32> = (0..400)
            .map(|_| read(&meal_changed(draws)).map_or_else(|refusal| refusal.number, |_| 0))
            .collect();
        for wanted in [0, 7, 13] {
            let count = numbers.iter().filter(|&&number| number == wanted).count();
            assert!(count > 20, "{count} sheets of number {wanted}");
        }
    }
}
