//! The questions about a day: the shortfall of marked slots, and a placing under bounds.

use crate::calls::{same, Checked};
use crate::expected::Expected;
use crate::form::Form;
use reference::draws::Draws;

pub fn check_shortfall(e: &Expected, forms: &[Form], draws: &mut Draws) -> Checked {
    let day = e.sheet.as_ref().map_or(3, |sheet| sheet.slots as usize);
    let marks: Vec<u8> = (0..day).map(|_| draws.below(2) as u8).collect();
    let mut odd = marks.clone();
    odd[draws.index(day)] = 2 + draws.below(254) as u8;
    let mut longer = marks.clone();
    longer.push(0);
    let all = vec![1; day];
    for marks in [&marks[..], &odd, &longer, &marks[1..], &all, &[]] {
        let before = marks.to_vec();
        let expected = e.shortfall(marks);
        for form in forms {
            let answer = form.shortfall(marks);
            let values = (answer.number, answer.line, answer.shortfall);
            form.named(same("shortfall", values, expected))?;
        }
        same("shortfall changes the marks", marks, &before)?;
    }
    Ok(())
}

/// Bounds at and around the counts of the plan, at random, and of other lengths.
pub fn check_bounds(e: &Expected, forms: &[Form], draws: &mut Draws) -> Checked {
    let (day, blowers) = match &e.sheet {
        Ok(sheet) => (sheet.slots as usize, sheet.blowers),
        Err(_) => (3, 2),
    };
    let counts = match &e.counts {
        Some(counts) => counts.clone(),
        None => (0..day).map(|_| draws.below(blowers + 1)).collect(),
    };
    let ask = |lows: &[u32], highs: &[u32]| -> Checked {
        let before = (lows.to_vec(), highs.to_vec());
        let expected = e.bounds(lows, highs);
        for form in forms {
            let answer = form.bounds(lows, highs);
            let values = (answer.number, answer.line, answer.yes);
            form.named(same("bounds", values, expected))?;
        }
        same(
            "bounds changes a list",
            (lows, highs),
            (&before.0, &before.1),
        )
    };
    ask(&counts, &counts)?;
    let (mut lows, mut highs) = (counts.clone(), counts.clone());
    for t in 0..day {
        match draws.below(8) {
            0 => lows[t] = lows[t].saturating_sub(1),
            1 | 2 => highs[t] += 1,
            3 => lows[t] = draws.below(blowers + 2),
            4 => highs[t] = draws.below(blowers + 2),
            5 => (lows[t], highs[t]) = (0, u32::MAX),
            _ => {}
        }
    }
    ask(&lows, &highs)?;
    if draws.one_in(8) {
        lows[draws.index(day)] = u32::MAX - draws.below(3);
        ask(&lows, &highs)?;
    }
    lows.push(0);
    ask(&lows, &highs)?;
    ask(&highs, &lows)?;
    ask(&highs[1..], &highs[1..])
}
