//! Generated sheets that several streams share: how many of each kind there are within some limits.

use crate::damage::damaged_sheet;
use crate::draws::Draws;
use crate::generate::{any_sheet, jagged_sheet, tight_sheet, Sizes};

/// How many sheets of each kind there are within the limits.
pub struct Share {
    pub limits: Sizes,
    pub any: u32,
    pub tight: u32,
    pub jagged: u32,
    pub damaged: u32,
}

impl Share {
    pub fn sheets(&self, draws: &mut Draws) -> Vec<Vec<u8>> {
        let mut sheets = Vec::new();
        for _ in 0..self.any {
            sheets.push(any_sheet(draws, self.limits).text());
        }
        for _ in 0..self.tight {
            sheets.push(tight_sheet(draws, self.limits).text());
        }
        for _ in 0..self.jagged {
            sheets.push(jagged_sheet(draws, self.limits).text());
        }
        for _ in 0..self.damaged {
            sheets.push(damaged_sheet(draws, self.limits));
        }
        sheets
    }
}
