//! The numbers of a day, to be written or lent as records: a sheet's own, drawn, or changed.

use crate::expected::Expected;
use library::{Ration, Records};
use reference::draws::Draws;
use reference::sheet::{MOST_TANK, MOST_WAKE};

pub struct Values {
    /// The head line: slots, blowers, wake cost, rations.
    pub head: [u32; 4],
    /// Four numbers for each ration.
    pub flat: Vec<u32>,
}

/// Lies behind the rations that are lent. A call that took it for one would refuse it.
const BEYOND: Ration = Ration {
    tank: u32::MAX,
    first: u32::MAX,
    last: 0,
    volume: u32::MAX,
};

/// A number at a limit or beyond, or a likely one.
fn odd(draws: &mut Draws) -> u32 {
    const ODD: [u32; 18] = [
        0,
        1,
        8,
        9,
        64,
        65,
        96,
        97,
        200,
        999,
        1_000,
        MOST_WAKE,
        MOST_WAKE + 1,
        99_999,
        100_000,
        MOST_TANK,
        MOST_TANK + 1,
        u32::MAX,
    ];
    match draws.below(3) {
        0 => ODD[draws.index(ODD.len())],
        1 => draws.below(100),
        _ => 1 + draws.below(3),
    }
}

impl Values {
    /// Those of the sheet, drawn where it is refused.
    pub fn of(e: &Expected, draws: &mut Draws) -> Self {
        if let Ok(sheet) = &e.sheet {
            let n = sheet.rations.len() as u32;
            return Values {
                head: [sheet.slots, sheet.blowers, sheet.wake, n],
                flat: sheet.flat_rations(),
            };
        }
        let n = draws.below(4);
        let flat = (0..4 * n).map(|_| odd(draws)).collect();
        let wake = draws.below(MOST_WAKE + 2);
        let head = [1 + draws.below(97), 1 + draws.below(9), wake, n];
        Values { head, flat }
    }

    /// Changes one number, the length of the list, or how many rations there are.
    pub fn change(&mut self, draws: &mut Draws) {
        match draws.below(11) {
            0 | 1 => self.head[draws.index(4)] = odd(draws),
            2 | 3 => self.flat.push(odd(draws)),
            4 | 5 => drop(self.flat.pop()),
            6 => self.resize([0, 64, 65, 66, 200][draws.index(5)]),
            // A ration takes the tank before it.
            7 if self.flat.len() >= 8 => {
                let at = 4 * (1 + draws.index(self.flat.len() / 4 - 1));
                self.flat[at] = self.flat[at - 4];
            }
            _ if self.flat.is_empty() => {}
            _ => {
                let at = draws.index(self.flat.len());
                self.flat[at] = odd(draws);
            }
        }
    }

    /// Drops rations, or adds some for the first slot with tanks that rise.
    fn resize(&mut self, n: u32) {
        self.head[3] = n;
        self.flat.truncate(4 * n as usize);
        while self.flat.len() < 4 * n as usize {
            let before = self.flat.len().checked_sub(4).map_or(0, |at| self.flat[at]);
            self.flat.extend([before.wrapping_add(1), 1, 1, 1]);
        }
    }

    /// The flat numbers of the whole rations among them.
    pub fn whole(&self) -> &[u32] {
        &self.flat[..self.flat.len() / 4 * 4]
    }

    /// The whole rations as records, and one behind them that is not to be lent.
    pub fn rations(&self) -> Vec<Ration> {
        let ration = |numbers: &[u32]| Ration {
            tank: numbers[0],
            first: numbers[1],
            last: numbers[2],
            volume: numbers[3],
        };
        let rations = self.whole().chunks(4).map(ration);
        rations.chain([BEYOND]).collect()
    }

    /// What is lent of the rations that `rations` gave.
    pub fn records<'a>(&self, rations: &'a [Ration]) -> Records<'a> {
        let [slots, blowers, wake, _] = self.head;
        Records {
            slots,
            blowers,
            wake,
            rations: &rations[..rations.len() - 1],
        }
    }
}
