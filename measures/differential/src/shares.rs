//! The call that cuts rations equally, on sheets of which most are held.

use crate::calls::{holds, same, sizes, Buffers, Checked};
use crate::cores::check_all;
use crate::written;
use reference::draws::Draws;
use reference::listing::{PLACING_WORDS, PLAN_BUFFER};
use reference::share::{cut_sheet, plan_share, SharePlanned, WHOLE};
use reference::sheet::read;
use sheets::short::sheet_at;
use std::ops::{AddAssign, RangeInclusive};
use std::time::Instant;

/// Shares below 100 are counted in these ranges.
const RANGES: [RangeInclusive<usize>; 6] = [1..=20, 21..=40, 41..=60, 61..=80, 81..=98, 99..=99];

/// Sheets by the number that each gets, and those with number 0 by their share.
pub struct Tally {
    numbers: [u64; 14],
    shares: [u64; WHOLE as usize + 1],
    /// Sheets with a ration that is cut to 0: in all, with one before a ration that is fed, and with no ration that is.
    unfed: [u64; 3],
}

impl Tally {
    pub fn new() -> Self {
        Tally {
            numbers: [0; 14],
            shares: [0; WHOLE as usize + 1],
            unfed: [0; 3],
        }
    }

    fn add(&mut self, bytes: &[u8], planned: &SharePlanned) {
        self.numbers[planned.number as usize] += 1;
        let Ok(sheet) = read(bytes) else {
            return;
        };
        self.shares[planned.share as usize] += 1;
        let cut = cut_sheet(&sheet, planned.share);
        let fed: Vec<bool> = cut.rations.iter().map(|ration| ration.volume > 0).collect();
        let some = fed.contains(&false);
        let before = fed.windows(2).any(|pair| pair == [false, true]);
        let none = some && !fed.contains(&true);
        for (count, is_so) in self.unfed.iter_mut().zip([some, before, none]) {
            *count += u64::from(is_so);
        }
    }

    pub fn print(&self) {
        let sheets: u64 = self.numbers.iter().sum();
        let whole = self.shares[WHOLE as usize];
        let (cut, refused) = (self.numbers[0] - whole, sheets - self.numbers[0]);
        println!(
            "{sheets} sheets for a share, {whole} planned whole, {cut} cut, {refused} refused"
        );
        let numbers = self.numbers.iter().enumerate();
        let numbers = numbers.filter(|(number, _)| !(10..13).contains(number));
        let cells: String = numbers.map(|(_, count)| format!("{count:>8}")).collect();
        println!("by number 0 to 9 and 13   {cells}");
        let below = &self.shares[..WHOLE as usize];
        let cells = RANGES.map(|range| format!("{:>8}", below[range].iter().sum::<u64>()));
        let seen = below.iter().filter(|&&count| count > 0).count();
        println!(
            "cut to a share of 1 to 20, to 40, to 60, to 80, to 98, and 99   {}",
            cells.concat()
        );
        println!("    {seen} of these 99 shares");
        let [some, before, none] = self.unfed;
        println!("{some} with a ration cut to 0, {before} with one that is fed after it, {none} with none that is fed");
    }
}

impl AddAssign<&Tally> for Tally {
    fn add_assign(&mut self, other: &Tally) {
        let own = self.numbers.iter_mut().chain(&mut self.shares);
        let own = own.chain(&mut self.unfed);
        let others = other.numbers.iter().chain(&other.shares);
        for (own, other) in own.zip(others.chain(&other.unfed)) {
            *own += other;
        }
    }
}

/// Both buffers too short, just long enough and longer, in all pairs.
pub fn check_share(bytes: &[u8], draws: &mut Draws, b: &mut Buffers, tally: &mut Tally) -> Checked {
    let before = bytes.to_vec();
    let whole = plan_share(bytes, PLAN_BUFFER, PLACING_WORDS);
    let (listings, placings) = (sizes(PLAN_BUFFER, draws), sizes(PLACING_WORDS, draws));
    for one in listings {
        for other in placings {
            // The reference plans the day once: it takes long, and longer buffers make no difference to it.
            let expected = match one >= PLAN_BUFFER && other >= PLACING_WORDS {
                true => whole.clone(),
                false => plan_share(bytes, one, other),
            };
            let answer = library::plan_share(bytes, b.listing.lend(one), b.placing.lend(other));
            let numbers = (answer.number, answer.line, answer.length, answer.share);
            let SharePlanned {
                number,
                line,
                share,
                listing,
                placing,
            } = expected;
            same("plan_share", numbers, (number, line, listing.len(), share))?;
            holds("plan_share", &mut b.listing, &listing)?;
            holds("plan_share", &mut b.placing, &placing)?;
        }
    }
    same("plan_share changes the sheet", bytes, &before)?;
    tally.add(bytes, &whole);
    Ok(())
}

/// So many sheets from a place on, on all cores.
pub fn run(count: usize, from: usize) -> Checked {
    let start = Instant::now();
    let places = from as u64..(from + count) as u64;
    let new = || (Buffers::new(), Tally::new());
    let check = |place, (buffers, tally): &mut (Buffers, Tally)| {
        let (bytes, mut draws) = sheet_at(place as usize);
        check_share(&bytes, &mut draws, buffers, tally)
            .map_err(|message| format!("sheet {place}: {message}\n{}", written(&bytes)))
    };
    let cores = check_all("sheets", places, new, check)?;
    let mut tally = Tally::new();
    cores.iter().for_each(|(_, own)| tally += own);
    tally.print();
    println!("no difference, {:.0} s", start.elapsed().as_secs_f64());
    Ok(())
}
