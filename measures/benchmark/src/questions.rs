//! The calls `shortfall` and `bounds` on full sheets.

use crate::engines;
use crate::stats::{time, Times};
use reference::draws::Draws;
use sheets::{Kind, FULL};
use std::hint::black_box;
use std::time::Duration;

/// The calls are short, so each time is that of so many.
const BATCH: u32 = 20;
/// A sheet's least time of so many counts.
const PASSES: usize = 9;

/// A sheet with what is asked of it.
struct Asked {
    sheet: Vec<u8>,
    marks: Vec<u8>,
    lows: Vec<u32>,
    highs: Vec<u32>,
}

fn asked(kind: Kind, count: usize) -> Vec<Asked> {
    let draws = &mut Draws::new(2);
    let mut lists = |sheet: Vec<u8>| {
        let day = 0..FULL.slots;
        Asked {
            sheet,
            marks: day.clone().map(|_| draws.below(2) as u8).collect(),
            // Lows that leave most sheets a sound placing.
            lows: day.clone().map(|_| draws.below(4)).collect(),
            highs: day.map(|_| draws.between(7, 9)).collect(),
        }
    };
    let texts = engines::texts(kind, FULL, count);
    texts.into_iter().map(&mut lists).collect()
}

type Call<A> = fn(&Asked) -> A;

fn times<A>(all: &[Asked], call: Call<A>, batch: u32) -> Times {
    let once = |asked: &Asked| -> Duration {
        time(|| {
            for _ in 0..batch {
                black_box(call(asked));
            }
        }) / batch
    };
    let mut least = vec![Duration::MAX; all.len()];
    for _ in 0..PASSES {
        for (asked, best) in all.iter().zip(&mut least) {
            *best = once(asked).min(*best);
        }
    }
    Times::of(least)
}

/// A program, by its name in the table.
type Program<'a, A> = (&'a str, Call<A>);

/// The library beside programs that answer every sheet, and one that answers the first `slow`.
fn compare<A: PartialEq>(
    name: &str,
    all: &[Asked],
    slow: usize,
    library: Call<A>,
    others: &[Program<A>],
    reference: Call<A>,
) -> Result<(), String> {
    let some = &all[..slow];
    let same = |call: Call<A>, asked: &[Asked]| asked.iter().all(|a| library(a) == call(a));
    if !others.iter().all(|&(_, call)| same(call, all)) || !same(reference, some) {
        return Err(format!("{name} is answered in two ways"));
    }
    let own = times(all, library, BATCH);
    println!("| {name} | library | {} | 1 |", own.cells());
    for &(program, call) in others {
        let other = times(all, call, BATCH);
        let ratio = other.median() / own.median();
        println!("| {name} | {program} | {} | {ratio:.2} |", other.cells());
    }
    if slow > 0 {
        let own = times(some, library, BATCH);
        let other = times(some, reference, 1);
        let ratio = other.median() / own.median();
        println!("| {name} | reference | {} | {ratio:.0} |", other.cells());
    }
    Ok(())
}

/// Number, line, shortfall.
type Shortfall = (u32, u32, i32);

fn library_shortfall(a: &Asked) -> Shortfall {
    let answer = library::shortfall(&a.sheet, &a.marks);
    (answer.number, answer.line, answer.shortfall)
}

/// Under a name that a counter of instructions finds.
#[no_mangle]
#[inline(never)]
fn plain_shortfall(a: &Asked) -> Shortfall {
    plain::shortfall(&a.sheet, &a.marks)
}

/// As `plain_shortfall`.
#[no_mangle]
#[inline(never)]
fn plain_shortfall_by_slot(a: &Asked) -> Shortfall {
    plain::shortfall_by_slot(&a.sheet, &a.marks)
}

pub fn run(count: usize, slow: usize) -> Result<(), String> {
    println!("Questions about {count} full sheets, microseconds of processor time a call.\n");
    println!("| Call | Program | Median | 99th percentile | Worst | Times |");
    println!("|---|---|---|---|---|---|");
    for kind in [Kind::WholeDay, Kind::Mixed] {
        let all = asked(kind, count);
        compare(
            &format!("shortfall, {}", kind.name()),
            &all,
            slow,
            library_shortfall,
            &[
                ("plain Rust", plain_shortfall),
                ("plain Rust, slot by slot", plain_shortfall_by_slot),
            ],
            |a| reference::placing::shortfall(&a.sheet, &a.marks),
        )?;
        let library: Call<(u32, u32, bool)> = |a| {
            let answer = library::bounds(&a.sheet, &a.lows, &a.highs);
            (answer.number, answer.line, answer.yes)
        };
        compare(
            &format!("bounds, {}", kind.name()),
            &all,
            slow,
            library,
            &[("plain Rust", |a| plain::bounds(&a.sheet, &a.lows, &a.highs))],
            |a| reference::placing::bounds(&a.sheet, &a.lows, &a.highs),
        )?;
    }
    Ok(())
}

/// Asks the shortfall of every sheet once.
pub fn once(program: &str, kind: Kind, count: usize) -> Option<()> {
    let call: Call<Shortfall> = match program {
        "library" => library_shortfall,
        "plain" => plain_shortfall,
        "by-slot" => plain_shortfall_by_slot,
        _ => return None,
    };
    for a in &asked(kind, count) {
        black_box(call(a));
    }
    Some(())
}
