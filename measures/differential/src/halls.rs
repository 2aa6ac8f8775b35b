//! The call that plans halls behind one limit, on groups of halls.

use crate::calls::{holds, same, Checked};
use crate::cores::check_all;
use crate::lent::Lent;
use library::Planned;
use reference::groups::{Group, LONGEST_LISTING, LONGEST_PLACING};
use reference::halls::{plan_halls, HallsPlanned, MOST_HALLS};
use reference::sheet::{read, MOST_SLOTS};
use sheets::groups::group_at;
use std::array;
use std::ops::AddAssign;
use std::time::Instant;

/// The buffers that the halls are lent, each its own.
pub struct HallBuffers([(Lent<u8>, Lent<u64>); MOST_HALLS]);

impl HallBuffers {
    pub fn new() -> Self {
        let buffers = |_| (Lent::bytes(LONGEST_LISTING), Lent::words(LONGEST_PLACING));
        HallBuffers(array::from_fn(buffers))
    }
}

/// Groups, and the halls in them by the number that each gets.
#[derive(Default)]
pub struct Tally {
    groups: u64,
    /// Groups refused by 14.
    refused: u64,
    numbers: [u64; 14],
    /// Halls that the limit left fewer blowers than their own in some slot: planned, held.
    fewer: [u64; 2],
}

impl Tally {
    fn add(&mut self, group: &Group, planned: &HallsPlanned) {
        self.groups += 1;
        if planned.number != 0 {
            self.refused += 1;
            return;
        }
        let mut used = [0; MOST_SLOTS as usize];
        let there = group.lent.iter().zip(&planned.halls);
        for (hall, planned) in there.take(group.halls as usize) {
            self.numbers[planned.number as usize] += 1;
            if let (Ok(sheet), 0 | 12) = (read(&hall.sheet), planned.number) {
                let day = &used[..sheet.slots as usize];
                let fewer = day.iter().any(|used| group.limit - used < sheet.blowers);
                self.fewer[usize::from(planned.number == 12)] += u64::from(fewer);
            }
            for (used, word) in used.iter_mut().zip(&planned.placing) {
                *used += word.count_ones();
            }
        }
    }

    pub fn print(&self) {
        let halls: u64 = self.numbers.iter().sum();
        println!(
            "{} groups, {} of them refused by 14, with {halls} halls",
            self.groups, self.refused
        );
        let numbers = self.numbers.iter().enumerate();
        let numbers = numbers.filter(|(number, _)| *number != 11);
        let cells: String = numbers.map(|(_, count)| format!("{count:>8}")).collect();
        println!("halls by number 0 to 10, 12 and 13   {cells}");
        let [planned, held] = self.fewer;
        println!("with fewer blowers than their own: {planned} planned, {held} held");
    }
}

impl AddAssign<&Tally> for Tally {
    fn add_assign(&mut self, other: &Tally) {
        self.groups += other.groups;
        self.refused += other.refused;
        for (own, other) in self.numbers.iter_mut().zip(other.numbers) {
            *own += other;
        }
        for (own, other) in self.fewer.iter_mut().zip(other.fewer) {
            *own += other;
        }
    }
}

/// Plans the halls of a group, and says of a difference in which hall it is.
fn check(group: &Group, expected: &HallsPlanned, HallBuffers(b): &mut HallBuffers) -> Checked {
    let before = group.lent.clone();
    let mut halls = group.lent.iter().zip(b.iter_mut());
    let lent = array::from_fn(|_| {
        let (hall, (listing, placing)) = halls.next().expect("there are four");
        library::Hall {
            sheet: &hall.sheet,
            listing: listing.lend(hall.listing_bytes),
            placing: placing.lend(hall.placing_words),
        }
    });
    let answer = library::plan_halls(group.limit, group.halls, lent);
    let own = (answer.number, answer.line);
    same("plan_halls", own, (expected.number, expected.line))?;
    let answers = answer.hall.iter().zip(&expected.halls);
    for (h, ((answer, expected), (listing, placing))) in (1..).zip(answers.zip(b)) {
        let length = expected.listing.len();
        let planned = Planned {
            number: expected.number,
            line: expected.line,
            length,
        };
        same("plan_halls", *answer, planned)
            .and_then(|()| holds("plan_halls", listing, &expected.listing))
            .and_then(|()| holds("plan_halls", placing, &expected.placing))
            .map_err(|message| format!("hall {h}: {message}"))?;
    }
    same("plan_halls changes a sheet", &group.lent, &before)
}

/// The group with this place in the run of groups.
pub fn check_group(place: usize, b: &mut HallBuffers, tally: &mut Tally) -> Checked {
    let group = group_at(place);
    let expected = plan_halls(group.limit, group.halls, &group.lent);
    check(&group, &expected, b).map_err(|message| format!("group {place}: {message}"))?;
    tally.add(&group, &expected);
    Ok(())
}

/// So many groups from a place on, on all cores.
pub fn run(count: usize, from: usize) -> Checked {
    let start = Instant::now();
    let places = from as u64..(from + count) as u64;
    let new = || (HallBuffers::new(), Tally::default());
    let check = |place, (buffers, tally): &mut (HallBuffers, Tally)| {
        check_group(place as usize, buffers, tally)
    };
    let cores = check_all("groups of halls", places, new, check)?;
    let mut tally = Tally::default();
    cores.iter().for_each(|(_, own)| tally += own);
    tally.print();
    println!("no difference, {:.0} s", start.elapsed().as_secs_f64());
    Ok(())
}
