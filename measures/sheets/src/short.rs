//! Sheets to cut rations on, most of them held. A kind's share of the run is set by what the reference needs for it: it
//! asks for a flow at each of 101 shares.

use crate::mixture::{draws_at, kind, kind_among, Kind};
use crate::{one, raise};
use reference::damage::damaged_sheet;
use reference::draws::Draws;
use reference::generate::{
    any_sheet, crowded_sheet, heavy_sheet, held_full_sheet, held_sheet, tight_sheet,
    whole_day_sheet, Sizes, FULL, MIDDLE, SMALL,
};
use reference::practice::practice_sheet;

const KINDS: [Kind; 21] = [
    kind("full, overloaded", 6, overloaded_sheet),
    kind("full, held", 8, |d| held_full_sheet(d).text()),
    kind("any size, that fits", 40, |d| tight_sheet(d, FULL).text()),
    kind("any size, crowded", 60, |d| crowded_sheet(d, FULL).text()),
    kind("any size, damaged", 60, |d| damaged_sheet(d, FULL)),
    kind("any size, raised", 80, |d| raised_sheet(d, FULL)),
    kind("any size, held", 120, |d| held_sheet(d, FULL).text()),
    kind("any size, heavy", 200, |d| heavy_sheet(d, FULL).text()),
    kind("practice", 150, |d| practice_sheet(d.draw()).text()),
    kind("middle, damaged", 240, |d| damaged_sheet(d, MIDDLE)),
    kind("middle, any", 300, |d| any_sheet(d, MIDDLE).text()),
    kind("middle, crowded", 400, |d| crowded_sheet(d, MIDDLE).text()),
    kind("middle, raised", 500, |d| raised_sheet(d, MIDDLE)),
    kind("middle, held", 900, |d| held_sheet(d, MIDDLE).text()),
    kind("middle, heavy", 1600, |d| heavy_sheet(d, MIDDLE).text()),
    kind("small, any", 300, |d| any_sheet(d, SMALL).text()),
    kind("small, damaged", 536, |d| damaged_sheet(d, SMALL)),
    kind("small, crowded", 500, |d| crowded_sheet(d, SMALL).text()),
    kind("small, raised", 700, |d| raised_sheet(d, SMALL)),
    kind("small, held", 900, |d| held_sheet(d, SMALL).text()),
    kind("small, heavy", 2400, |d| heavy_sheet(d, SMALL).text()),
];

/// The sheet with this place in the run, which can be made again without those before it, and the draws left after it.
pub fn sheet_at(place: usize) -> (Vec<u8>, Draws) {
    let mut draws = draws_at(place);
    let sheet = (KINDS[kind_among(&KINDS, place)].make)(&mut draws);
    (sheet, draws)
}

/// A sheet of the most slots, blowers and rations, of those that times are measured on.
fn overloaded_sheet(draws: &mut Draws) -> Vec<u8> {
    let kind = match draws.one_in(2) {
        true => crate::Kind::OverloadedWholeDay,
        false => crate::Kind::OverloadedMixed,
    };
    one(kind, crate::FULL, draws).text()
}

/// A sheet of whole-day windows that asks for more than a random one does.
fn raised_sheet(draws: &mut Draws, limits: Sizes) -> Vec<u8> {
    let mut sheet = whole_day_sheet(draws, limits);
    raise(&mut sheet, draws);
    sheet.text()
}

#[cfg(test)]
mod tests {
    use super::*;
    use reference::share::greatest_share;
    use reference::sheet::read;

    #[test]
    fn every_place_has_a_kind() {
        let all: u32 = KINDS.iter().map(|kind| kind.share).sum();
        assert_eq!(all, 10_000);
        assert_eq!(kind_among(&KINDS, 9_999), KINDS.len() - 1);
    }

    #[test]
    fn most_sheets_are_cut_and_to_many_shares() {
        // From among the small and middle ones.
        let sheets = (2_500..10_000).step_by(5).map(|place| sheet_at(place).0);
        let (mut shares, mut refused) = ([0; 101], 0);
        for sheet in sheets {
            match read(&sheet) {
                Ok(sheet) => shares[greatest_share(&sheet) as usize] += 1,
                Err(_) => refused += 1,
            }
        }
        let whole = shares[100];
        let cut: u32 = shares[..100].iter().sum();
        assert!(
            cut > 900 && whole > 150 && refused > 50,
            "{cut} {whole} {refused}"
        );
        let seen = shares[..100].iter().filter(|&&count| count > 0).count();
        assert!(
            seen > 40 && shares[0] == 0 && shares[99] < cut * 2 / 3,
            "{shares:?}"
        );
    }

    #[test]
    fn overloaded_sheets_are_held() {
        let draws = &mut Draws::new(1);
        for _ in 0..4 {
            let sheet = read(&overloaded_sheet(draws)).expect("accepted");
            assert!((1..100).contains(&greatest_share(&sheet)));
        }
    }
}
