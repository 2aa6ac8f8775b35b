//! A day as it is lent to a call: as a sheet's bytes, or as numbers and records.

use crate::calls::Checked;
use library::{BoundsAnswer, Planned, Records, ShortfallAnswer};

#[derive(Clone, Copy)]
pub enum Form<'a> {
    Sheet(&'a [u8]),
    Records(Records<'a>),
}

impl Form<'_> {
    /// Says of a difference that it is one in this form.
    pub fn named(&self, checked: Checked) -> Checked {
        let name = match self {
            Form::Sheet(_) => "a sheet",
            Form::Records(_) => "records",
        };
        checked.map_err(|message| format!("on {name}, {message}"))
    }

    pub fn plan(&self, listing: &mut [u8]) -> Planned {
        match self {
            Form::Sheet(sheet) => library::plan(sheet, listing),
            Form::Records(records) => records.plan(listing),
        }
    }

    pub fn plan_both(&self, listing: &mut [u8], placing: &mut [u64]) -> Planned {
        match self {
            Form::Sheet(sheet) => library::plan_both(sheet, listing, placing),
            Form::Records(records) => records.plan_both(listing, placing),
        }
    }

    pub fn shortfall(&self, marks: &[u8]) -> ShortfallAnswer {
        match self {
            Form::Sheet(sheet) => library::shortfall(sheet, marks),
            Form::Records(records) => records.shortfall(marks),
        }
    }

    pub fn bounds(&self, lows: &[u32], highs: &[u32]) -> BoundsAnswer {
        match self {
            Form::Sheet(sheet) => library::bounds(sheet, lows, highs),
            Form::Records(records) => records.bounds(lows, highs),
        }
    }
}
