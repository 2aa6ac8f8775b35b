//! Planning full sheets.

use crate::engines::{self, buffer, library, plain_plan, reference, Engine};
use crate::lemon;
use crate::stats::{spread, time, Times};
use sheets::{Kind, FULL, KINDS};
use std::hint::black_box;
use std::path::Path;
use std::time::Duration;

/// The pass over all sheets is made so often; a sheet's least time counts, since whatever
/// else the machine does only adds to it.
pub const PASSES: usize = 15;
/// The same of the slower programs.
pub const SLOW_PASSES: usize = 3;

/// Whether two engines answer every sheet the same.
pub fn agree(sheets: &[Vec<u8>], one: Engine, other: Engine) -> bool {
    let (mut a, mut b) = (buffer(), buffer());
    let same = |sheet: &Vec<u8>| one(sheet, &mut a) == other(sheet, &mut b) && a == b;
    sheets.iter().all(same)
}

/// The time of each sheet, and the median over sheets in each pass.
pub struct Measured {
    least: Vec<Duration>,
    medians: Vec<f64>,
}

impl Measured {
    pub fn times(&self) -> Times {
        Times::of(self.least.clone())
    }
}

/// Measures engines that take each sheet in turn.
pub fn measure<const N: usize>(
    sheets: &[Vec<u8>],
    passes: usize,
    engines: [Engine; N],
) -> [Measured; N] {
    let mut out = buffer();
    let mut all = engines.map(|_| Measured {
        least: vec![Duration::MAX; sheets.len()],
        medians: Vec::new(),
    });
    for _ in 0..passes {
        let mut pass = engines.map(|_| Vec::new());
        for (at, sheet) in sheets.iter().enumerate() {
            for (engine, (own, times)) in engines.iter().zip(all.iter_mut().zip(&mut pass)) {
                let taken = time(|| {
                    black_box(engine(sheet, &mut out));
                });
                own.least[at] = own.least[at].min(taken);
                times.push(taken);
            }
        }
        for (own, times) in all.iter_mut().zip(pass) {
            own.medians.push(Times::of(times).median());
        }
    }
    all
}

pub fn row(sheets: &str, what: &str, times: &Times, ratio: &str) {
    println!("| {sheets} | {what} | {} | {ratio} |", times.cells());
}

fn run_kind(kind: Kind, count: usize, slow: usize, lemon: Option<&Path>) -> Result<String, String> {
    let sheets = engines::texts(kind, FULL, count);
    let some = &sheets[..slow.min(count)];
    if !agree(&sheets, library, plain_plan) || !agree(some, library, reference) {
        return Err(format!("a {} sheet is planned in two ways", kind.name()));
    }
    let [proved, plain] = measure(&sheets, PASSES, [library, plain_plan]);
    let own = proved.times();
    let ratio = plain.times().median() / own.median();
    row(kind.name(), "library", &own, "1");
    row(
        kind.name(),
        "plain Rust",
        &plain.times(),
        &format!("{ratio:.2}"),
    );

    // The slower ones plan some of the sheets, and are set beside the library on these.
    if !some.is_empty() {
        let least = proved.least[..some.len()].to_vec();
        let own = Times::of(least);
        let [flow] = measure(some, SLOW_PASSES, [reference]);
        let times = flow.times();
        let ratio = times.median() / own.median();
        row(kind.name(), "reference", &times, &format!("{ratio:.0}"));
        if let Some(program) = lemon {
            let (counts, whole) = lemon::plan(program, some)?;
            for (what, times) in [("LEMON, counts alone", counts), ("LEMON", whole)] {
                let ratio = times.median() / own.median();
                row(kind.name(), what, &times, &format!("{ratio:.0}"));
            }
        }
    }
    let ratios = plain.medians.iter().zip(&proved.medians);
    let [low, _, high] = spread(ratios.map(|(plain, proved)| plain / proved).collect());
    let [least, middle, most] = spread(proved.medians);
    Ok(format!(
        "| {} | {least:.1} | {middle:.1} | {most:.1} | {low:.2} to {high:.2} |",
        kind.name()
    ))
}

pub fn run(count: usize, slow: usize, lemon: Option<&Path>) -> Result<(), String> {
    println!("Planning {count} full sheets of each kind: microseconds of processor time a sheet, the least of");
    println!("{PASSES} passes; the reference and LEMON plan {slow} of the sheets, in {SLOW_PASSES} passes. Times: the median");
    println!("against the library's on the same sheets.\n");
    println!("| Sheets | Program | Median | 99th percentile | Worst | Times |");
    println!("|---|---|---|---|---|---|");
    let mut spreads = Vec::new();
    for kind in KINDS {
        spreads.push(run_kind(kind, count, slow, lemon)?);
    }
    println!("\nNoise: the median over sheets within each of the {PASSES} passes.\n");
    println!("| Sheets | Library, least | middle | most | Plain Rust, times |");
    println!("|---|---|---|---|---|");
    for line in spreads {
        println!("{line}");
    }
    Ok(())
}
