//! The static libraries against the reference implementation: every call, with buffers of
//! every length that matters, on many sheets of all kinds and on groups of halls; the practice
//! sheets of all seeds of a range, with their plans; groups of halls alone; pairs of sheets that
//! are compared; and sheets whose rations are cut.

mod calls;
mod causes;
mod cores;
mod expected;
mod form;
mod halls;
mod lent;
mod pairs;
mod planning;
mod practice;
mod questions;
mod reading;
mod seeds;
mod shares;
mod values;

use calls::{same, Buffers, Checked};
use expected::Expected;
use halls::{check_group, HallBuffers};
use practice::{check_practice, seed_at};
use reference::practice::LAST_SEED;
use shares::check_share;
use sheets::mixture::{draws_at, kind_at, KINDS};
use std::process::ExitCode;
use std::time::Instant;

/// Where the sheet of the first difference is written.
const DIFFERENCE: &str = "difference.sheet";

/// A group of halls is planned beside the first of so many sheets, whose own rations are cut too.
const SHEETS_TO_A_GROUP: usize = 5;

/// Days by the number that planning gives, 0 to 13.
type ByNumber = [u64; 14];

/// Sheets by kind and by number, and days that were made of changed values and lent as
/// records alone.
struct Tally {
    kinds: [ByNumber; KINDS.len()],
    full: ByNumber,
    changed: ByNumber,
}

impl Tally {
    fn print(&self) {
        println!(
            "{:<24}{:>9}   by number 0 to 9, 12 and 13",
            "kind", "sheets"
        );
        let others = [
            ("of all, 96 x 8 x 64", &self.full),
            ("changed, as records", &self.changed),
        ];
        let rows = KINDS.iter().map(|kind| kind.name).zip(&self.kinds);
        for (name, row) in rows.chain(others) {
            let cells = row.iter().enumerate();
            let cells = cells.filter(|(number, _)| !(10..12).contains(number));
            let text: String = cells.map(|(_, count)| format!("{count:>8}")).collect();
            println!("{name:<24}{:>9}   {text}", row.iter().sum::<u64>());
        }
    }
}

/// Says where a sheet is written.
fn written(bytes: &[u8]) -> String {
    match std::fs::write(DIFFERENCE, bytes) {
        Ok(()) => format!("the sheet is in {DIFFERENCE}"),
        Err(error) => format!("the sheet can't be written: {error}"),
    }
}

/// Makes every call on so many sheets of the mixture, from a place on, writes the practice sheet
/// of a seed beside each, cuts the rations of some, and plans a group of halls beside these.
fn compare(count: usize, from: usize) -> Checked {
    let start = Instant::now();
    same("version", library::version(), library::VERSION)?;
    let mut tally = Tally {
        kinds: [[0; 14]; KINDS.len()],
        full: [0; 14],
        changed: [0; 14],
    };
    let mut buffers = Buffers::new();
    let (mut hall_buffers, mut halls) = (HallBuffers::new(), halls::Tally::default());
    let mut shares = shares::Tally::new();
    let mut second = Expected::of(Vec::new());
    for place in from..from + count {
        let mut draws = draws_at(place);
        let kind = kind_at(place);
        let expected = Expected::of((KINDS[kind].make)(&mut draws));
        let differs = |message: String| {
            let (name, written) = (KINDS[kind].name, written(&expected.bytes));
            format!("sheet {place}, {name}: {message}\n{written}")
        };
        let changed =
            calls::check(&expected, &second, &mut draws, &mut buffers).map_err(differs)?;
        if let Some(changed) = changed {
            tally.changed[changed.outcome() as usize] += 1;
        }
        let seed = seed_at(place, &mut draws);
        check_practice(seed, &mut draws, &mut buffers)
            .map_err(|message| format!("seed {seed}: {message}"))?;
        if place.is_multiple_of(SHEETS_TO_A_GROUP) {
            check_group(place / SHEETS_TO_A_GROUP, &mut hall_buffers, &mut halls)?;
            check_share(&expected.bytes, &mut draws, &mut buffers, &mut shares).map_err(differs)?;
        }
        let number = expected.outcome() as usize;
        tally.kinds[kind][number] += 1;
        if expected.is_full() {
            tally.full[number] += 1;
        }
        second = expected;
    }
    tally.print();
    halls.print();
    shares.print();
    let seconds = start.elapsed().as_secs_f64();
    println!("{count} sheets and as many practice sheets, no difference, {seconds:.0} s");
    Ok(())
}

const USAGE: &str = "usage: differential [COUNT [FROM]]
       differential practice [FIRST LAST]
       differential halls [COUNT [FROM]]
       differential pairs [COUNT [FROM]]
       differential shares [COUNT [FROM]]
FIRST and LAST are seeds of 32 bits, 0 and 99999 if none are given. COUNT is how many sheets, a
million if none is given, groups of halls, 200000, pairs of sheets, 100000, or sheets whose rations
are cut, 200000.";

/// Runs what the words ask for, if they ask for anything.
fn run(words: &[&str]) -> Option<Checked> {
    Some(match *words {
        [] => compare(1_000_000, 0),
        ["practice"] => seeds::run(0..=LAST_SEED),
        ["practice", first, last] => seeds::run(first.parse().ok()?..=last.parse().ok()?),
        ["halls"] => halls::run(200_000, 0),
        ["halls", count] => halls::run(count.parse().ok()?, 0),
        ["halls", count, from] => halls::run(count.parse().ok()?, from.parse().ok()?),
        ["pairs"] => pairs::run(100_000, 0),
        ["pairs", count] => pairs::run(count.parse().ok()?, 0),
        ["pairs", count, from] => pairs::run(count.parse().ok()?, from.parse().ok()?),
        ["shares"] => shares::run(200_000, 0),
        ["shares", count] => shares::run(count.parse().ok()?, 0),
        ["shares", count, from] => shares::run(count.parse().ok()?, from.parse().ok()?),
        [count] => compare(count.parse().ok()?, 0),
        [count, from] => compare(count.parse().ok()?, from.parse().ok()?),
        _ => return None,
    })
}

fn main() -> ExitCode {
    let arguments: Vec<String> = std::env::args().skip(1).collect();
    let words: Vec<&str> = arguments.iter().map(String::as_str).collect();
    match run(&words) {
        None => {
            eprintln!("{USAGE}");
            ExitCode::FAILURE
        }
        Some(Ok(())) => ExitCode::SUCCESS,
        Some(Err(message)) => {
            println!("{message}");
            ExitCode::FAILURE
        }
    }
}
