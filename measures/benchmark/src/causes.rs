//! Listing the causes of full sheets, and of sheets with long listings of causes, beside planning them.

use crate::engines::{self, buffer, causes, library, reference_causes};
use crate::planning::{agree, measure, row, PASSES};
use reference::draws::Draws;
use sheets::mixture::long_sets;
use sheets::{Kind, FULL};
use std::iter::repeat_with;

/// A held sheet has no causes.
const KINDS: [Kind; 3] = [Kind::WholeDay, Kind::Mixed, Kind::Tight];

/// Sheets that are planned, with a listing of causes near the longest or cut.
fn long_sheets(count: usize) -> Vec<Vec<u8>> {
    let draws = &mut Draws::new(1);
    let mut out = buffer();
    repeat_with(|| long_sets(draws))
        .filter(|sheet| library(sheet, &mut out).0 == 0)
        .take(count)
        .collect()
}

fn compare(name: &str, sheets: &[Vec<u8>], slow: usize) -> Result<(), String> {
    if !agree(&sheets[..slow.min(sheets.len())], causes, reference_causes) {
        return Err(format!("a {name} sheet has two listings of causes"));
    }
    let [planned, caused] = measure(sheets, PASSES, [library, causes]);
    let ratio = caused.times().median() / planned.times().median();
    row(name, "plan", &planned.times(), "1");
    row(name, "causes", &caused.times(), &format!("{ratio:.2}"));
    Ok(())
}

pub fn run(count: usize, slow: usize) -> Result<(), String> {
    println!("Listing the causes of {count} sheets of each kind beside planning them: microseconds of processor time a sheet,");
    println!("the least of {PASSES} passes. The sheets are full, except those made for long listings of causes. {slow} of each kind");
    println!("are held to the reference. Times: the median against that of planning.\n");
    println!("| Sheets | Call | Median | 99th percentile | Worst | Times |");
    println!("|---|---|---|---|---|---|");
    for kind in KINDS {
        compare(kind.name(), &engines::texts(kind, FULL, count), slow)?;
    }
    compare("long listings", &long_sheets(count), slow)
}
