//! The calls that plan: on a sheet, and on a day in each form that it is lent in.

use crate::calls::{holds, same, sizes, Buffers, Checked};
use crate::expected::Expected;
use crate::form::Form;
use reference::draws::Draws;
use reference::listing::{PLACING_WORDS, PLAN_BUFFER};

fn is_planned(number: u32) -> bool {
    number == 0 || number == 12
}

/// The calls that there are for a sheet alone, but for the comparison.
pub fn check_sheet(e: &Expected, draws: &mut Draws, b: &mut Buffers) -> Checked {
    for size in sizes(PLACING_WORDS, draws) {
        let (number, line) = e.planning(None, Some(size));
        let placing: &[u64] = if is_planned(number) { &e.placing } else { &[] };
        let answer = library::plan_placing(&e.bytes, b.placing.lend(size));
        let numbers = (answer.number, answer.line, answer.length);
        same("plan_placing", numbers, (number, line, 0))?;
        holds("plan_placing", &mut b.placing, placing)?;
    }
    let (number, line) = e.planning(None, None);
    let answer = library::plan_number(&e.bytes);
    let numbers = (answer.number, answer.line, answer.length);
    same("plan_number", numbers, (number, line, 0))
}

/// A sheet with itself, and two sheets in both orders.
pub fn check_compare(e: &Expected, second: &Expected) -> Checked {
    for (one, other) in [(e, e), (e, second), (second, e)] {
        let answer = library::compare(&one.bytes, &other.bytes);
        let values = (answer.number, answer.line, answer.order);
        same("compare", values, one.compared(other))?;
    }
    Ok(())
}

pub fn check_plan(e: &Expected, form: Form, draws: &mut Draws, b: &mut Buffers) -> Checked {
    let listings = sizes(PLAN_BUFFER, draws);
    let placings = sizes(PLACING_WORDS, draws);
    for size in listings {
        let (number, line) = e.planning(Some(size), None);
        let listing: &[u8] = if is_planned(number) { &e.listing } else { &[] };
        let answer = form.plan(b.listing.lend(size));
        let numbers = (answer.number, answer.line, answer.length);
        same("plan", numbers, (number, line, listing.len()))?;
        holds("plan", &mut b.listing, listing)?;
    }
    // Records lend each size once, beside another one on another sheet: all pairs would
    // take long.
    let shifts = match form {
        Form::Sheet(_) => 0..4,
        Form::Records(_) => {
            let shift = draws.index(4);
            shift..shift + 1
        }
    };
    for shift in shifts {
        for (i, one) in listings.into_iter().enumerate() {
            let other = placings[(i + shift) % 4];
            let (number, line) = e.planning(Some(one), Some(other));
            let (listing, placing): (&[u8], &[u64]) = match is_planned(number) {
                true => (&e.listing, &e.placing),
                false => (&[], &[]),
            };
            let answer = form.plan_both(b.listing.lend(one), b.placing.lend(other));
            let numbers = (answer.number, answer.line, answer.length);
            same("plan_both", numbers, (number, line, listing.len()))?;
            holds("plan_both", &mut b.listing, listing)?;
            holds("plan_both", &mut b.placing, placing)?;
        }
    }
    Ok(())
}
