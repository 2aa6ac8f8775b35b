//! The call that compares two sheets, on pairs of sheets whose plans are the same, nearly so, or
//! not, and on pairs with a sheet that is held or refused.

use crate::calls::{same, Checked};
use crate::cores::check_all;
use crate::expected::Expected;
use crate::planning::check_compare;
use reference::comparison::Order;
use sheets::pairs::pair_at;
use std::fs;
use std::time::Instant;

/// Where the sheets of the first difference are written.
const FILES: [&str; 2] = ["difference-first.sheet", "difference-second.sheet"];

/// What a pair is counted by.
struct Seen {
    /// What is said of the first sheet.
    order: u32,
    /// What becomes of each sheet, by its place in `FATES`.
    fates: [usize; 2],
    same_sheets: bool,
    same_counts: bool,
    place: Place,
    /// Of a place that is a slot: the lists are the same as far as the shorter one goes.
    in_length: bool,
}

const FATES: [&str; 3] = ["planned", "held", "refused"];

/// Where two plans differ first.
#[derive(Clone, Copy, PartialEq, Eq)]
enum Place {
    Nowhere,
    /// In D, and in feedings too, or in D alone.
    Slots,
    SlotsAlone,
    /// In a slot of days that are as long. The last slot is one that is not the first too.
    FirstSlot,
    InnerSlot,
    LastSlot,
}

/// Where these plans differ first, and whether it is in a list's length only.
fn place(one: &[Vec<u32>], other: &[Vec<u32>]) -> (Place, bool) {
    let common = one.len().min(other.len());
    let slot = (0..common).find(|&slot| one[slot] != other[slot]);
    if one.len() != other.len() {
        let mut rest = one[common..].iter().chain(&other[common..]);
        return match slot {
            None if rest.all(Vec::is_empty) => (Place::SlotsAlone, false),
            _ => (Place::Slots, false),
        };
    }
    let Some(slot) = slot else {
        return (Place::Nowhere, false);
    };
    let place = match slot {
        0 => Place::FirstSlot,
        _ if slot + 1 == common => Place::LastSlot,
        _ => Place::InnerSlot,
    };
    let (a, b) = (&one[slot], &other[slot]);
    (place, a.starts_with(b) || b.starts_with(a))
}

impl Seen {
    fn new(one: &Expected, other: &Expected) -> Self {
        let fate = |e: &Expected| match e.outcome() {
            0 => 0,
            12 => 1,
            _ => 2,
        };
        let (place, in_length) = match (&one.tanks, &other.tanks) {
            (Some(one), Some(other)) => place(one, other),
            _ => (Place::Nowhere, false),
        };
        Seen {
            order: one.compared(other).2,
            fates: [fate(one), fate(other)],
            same_sheets: one.bytes == other.bytes,
            same_counts: one.counts == other.counts,
            place,
            in_length,
        }
    }
}

fn print(seen: &[Seen]) {
    let count = |is: &dyn Fn(&Seen) -> bool| seen.iter().filter(|seen| is(seen)).count();
    let said = |order: Order| count(&|seen| seen.order == order as u32);
    let (no, same) = (said(Order::No), said(Order::Same));
    let (before, after) = (said(Order::Before), said(Order::After));
    println!("{} pairs, in both orders", seen.len());
    println!("said of the first sheet: {no} no, {same} same, {before} before, {after} after");
    println!(
        "{:<24}{:>9}{:>9}{:>9}",
        "first, and second", FATES[0], FATES[1], FATES[2]
    );
    for (first, name) in FATES.iter().enumerate() {
        let cells = [0, 1, 2].map(|second| count(&|seen| seen.fates == [first, second]));
        println!("{name:<24}{:>9}{:>9}{:>9}", cells[0], cells[1], cells[2]);
    }
    let apart = count(&|seen| seen.order == Order::Same as u32 && !seen.same_sheets);
    println!("same: {apart} from different sheets");
    let at = |place: Place| count(&|seen| seen.place == place);
    let (slots, slots_alone) = (at(Place::Slots), at(Place::SlotsAlone));
    println!("before and after: {slots_alone} in D alone, {slots} in D and in feedings");
    let (first, inner, last) = (
        at(Place::FirstSlot),
        at(Place::InnerSlot),
        at(Place::LastSlot),
    );
    let length = count(&|seen| seen.in_length);
    println!(
        "    {first} first in slot 1, {inner} in a slot within the day, {last} in the last slot"
    );
    println!("    {length} of these in a list's length only");
    let tanks = count(&|seen| seen.place != Place::Nowhere && seen.same_counts);
    println!("    {tanks} though all counts are the same");
}

/// Says where the sheets of a pair are written.
fn written(pair: &[Vec<u8>; 2]) -> String {
    let mut files = FILES.iter().zip(pair);
    match files.try_for_each(|(file, bytes)| fs::write(file, bytes)) {
        Ok(()) => format!("the sheets are in {} and {}", FILES[0], FILES[1]),
        Err(error) => format!("the sheets can't be written: {error}"),
    }
}

/// Compares the sheets of the pair with this place in the run, in both orders.
fn check(place: usize) -> Result<Seen, String> {
    let pair = pair_at(place);
    let [one, other] = pair.clone().map(Expected::of);
    check_compare(&one, &other)
        .and_then(|()| same("compare changes a sheet", &one.bytes, &pair[0]))
        .and_then(|()| same("compare changes a sheet", &other.bytes, &pair[1]))
        .map_err(|message| format!("pair {place}: {message}\n{}", written(&pair)))?;
    Ok(Seen::new(&one, &other))
}

/// So many pairs from a place on, on all cores.
pub fn run(count: usize, from: usize) -> Checked {
    let start = Instant::now();
    let places = from as u64..(from + count) as u64;
    let check_next = |place, seen: &mut Vec<Seen>| {
        seen.push(check(place as usize)?);
        Ok(())
    };
    let cores = check_all("pairs", places, Vec::new, check_next)?;
    let seen: Vec<Seen> = cores.into_iter().flatten().collect();
    print(&seen);
    println!("no difference, {:.0} s", start.elapsed().as_secs_f64());
    Ok(())
}

#[cfg(test)]
mod tests {
    use super::*;

    fn at(one: &[&[u32]], other: &[&[u32]]) -> (Place, bool) {
        let [one, other] = [one, other]
            .map(|lists| -> Vec<Vec<u32>> { lists.iter().map(|list| list.to_vec()).collect() });
        let there = place(&one, &other);
        assert!(there == place(&other, &one));
        there
    }

    #[test]
    fn where_two_plans_differ() {
        let day: &[&[u32]] = &[&[4], &[], &[4, 7]];
        assert!(at(day, day) == (Place::Nowhere, false));
        assert!(at(day, &[&[4], &[], &[4, 7], &[]]) == (Place::SlotsAlone, false));
        assert!(at(day, &[&[4], &[], &[4, 7], &[1]]) == (Place::Slots, false));
        assert!(at(day, &[&[4], &[]]) == (Place::Slots, false));
        assert!(at(day, &[&[5], &[], &[4, 7]]) == (Place::FirstSlot, false));
        assert!(at(day, &[&[4], &[1], &[4]]) == (Place::InnerSlot, true));
        assert!(at(day, &[&[4], &[], &[4]]) == (Place::LastSlot, true));
        assert!(at(day, &[&[4], &[], &[4, 8]]) == (Place::LastSlot, false));
        assert!(at(&[&[]], &[&[4]]) == (Place::FirstSlot, true));
    }
}
