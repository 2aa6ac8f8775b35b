//! The practice sheets of all seeds of a range, and their plans.

use crate::calls::{holds, same, Buffers, Checked};
use crate::cores::check_all;
use crate::expected::Expected;
use crate::practice::check_practice;
use crate::reading;
use reference::draws::Draws;
use reference::listing::{PLACING_WORDS, PLAN_BUFFER};
use reference::practice::practice_sheet;
use std::ops::RangeInclusive;
use std::time::Instant;

/// The sheet of a seed, its reading, and its plan in both buffers. Gives the plan's number.
fn check(seed: u32, b: &mut Buffers) -> Result<u32, String> {
    check_practice(seed, &mut Draws::new(seed), b)?;
    let sheet = practice_sheet(seed);
    let e = Expected::of(sheet.text());
    same("the reference's reading", &e.sheet, &Ok(sheet))?;
    reading::check_read(&e)?;
    let (listing, placing) = (b.listing.lend(PLAN_BUFFER), b.placing.lend(PLACING_WORDS));
    let answer = library::plan_both(&e.bytes, listing, placing);
    let numbers = (answer.number, answer.line, answer.length);
    same("plan_both", numbers, (e.number, 0, e.listing.len()))?;
    holds("plan_both", &mut b.listing, &e.listing)?;
    holds("plan_both", &mut b.placing, &e.placing)?;
    Ok(e.number)
}

/// What a core has: buffers, and how many sheets were planned and held.
struct Core {
    buffers: Buffers,
    planned: u64,
    held: u64,
}

impl Core {
    fn new() -> Self {
        Core {
            buffers: Buffers::new(),
            planned: 0,
            held: 0,
        }
    }

    fn check(&mut self, seed: u32) -> Checked {
        match check(seed, &mut self.buffers) {
            Ok(0) => self.planned += 1,
            Ok(_) => self.held += 1,
            Err(message) => return Err(format!("seed {seed}: {message}")),
        }
        Ok(())
    }
}

/// Goes through the seeds on all cores, and says how many sheets were planned and held.
pub fn run(seeds: RangeInclusive<u32>) -> Checked {
    let start = Instant::now();
    let places = u64::from(*seeds.start())..u64::from(*seeds.end()) + 1;
    let check = |seed: u64, core: &mut Core| core.check(seed as u32);
    let cores = check_all("practice sheets", places, Core::new, check)?;
    let planned: u64 = cores.iter().map(|core| core.planned).sum();
    let held: u64 = cores.iter().map(|core| core.held).sum();
    let (sheets, seconds) = (planned + held, start.elapsed().as_secs_f64());
    println!(
        "{sheets} practice sheets, {planned} planned, {held} held, {seconds:.0} s, no difference"
    );
    Ok(())
}
