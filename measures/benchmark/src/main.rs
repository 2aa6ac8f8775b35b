//! Times of the calls of the static library, beside the same engine in plain Rust, the
//! reference implementation and a max-flow library, on the same sheets and in one run.
//! Tables are in Markdown.

mod causes;
mod comparison;
mod engines;
mod growth;
mod halls;
mod lemon;
mod planning;
mod plot;
mod practice;
mod questions;
mod shares;
mod stats;

use std::path::PathBuf;
use std::process::ExitCode;

const USAGE: &str = "usage: benchmark planning SHEETS SLOW-SHEETS [LEMON-PROGRAM]
       benchmark causes SHEETS SLOW-SHEETS
       benchmark halls GROUPS SLOW-GROUPS
       benchmark shares SHEETS SLOW-SHEETS
       benchmark questions SHEETS SLOW-SHEETS
       benchmark growth SHEETS PLOT
       benchmark once library|plain|placing|both|causes KIND SHEETS
       benchmark compare next|itself KIND SHEETS
       benchmark shortfall library|plain|by-slot KIND SHEETS
       benchmark practice practice|write|read RATIONS SEEDS
       benchmark halls LIMIT|alone KIND GROUPS
       benchmark shares sheet|cut|share KIND SHEETS
SLOW-SHEETS is how many of the sheets the slower implementations get, and SLOW-GROUPS how many of
the groups of four. PLOT is the file that the plot is written to. `once` plans each sheet once, by
the library into a plan buffer, a placing buffer or both, or lists its causes, `compare` compares
each once with the next or with itself, `shortfall` asks the shortfall of each once, `practice`
makes, writes or reads the practice sheets of the first SEEDS seeds that draw RATIONS rations,
`halls` with a KIND plans each group once, as halls behind LIMIT or one sheet after another, and
`shares` with a KIND plans each sheet once as it is, its cut sheet, or with its rations cut, for
instructions to be counted.";

fn answer(words: &[&str]) -> Option<Result<(), String>> {
    Some(match *words {
        ["planning", count, slow] => planning::run(count.parse().ok()?, slow.parse().ok()?, None),
        ["planning", count, slow, lemon] => {
            let lemon = PathBuf::from(lemon);
            planning::run(count.parse().ok()?, slow.parse().ok()?, Some(&lemon))
        }
        ["causes", count, slow] => causes::run(count.parse().ok()?, slow.parse().ok()?),
        ["halls", count, slow] => halls::run(count.parse().ok()?, slow.parse().ok()?),
        ["halls", way, kind, count] => {
            halls::once(way, sheets::Kind::named(kind)?, count.parse().ok()?)?;
            Ok(())
        }
        ["shares", count, slow] => shares::run(count.parse().ok()?, slow.parse().ok()?),
        ["shares", way, kind, count] => {
            shares::once(way, sheets::Kind::named(kind)?, count.parse().ok()?)?;
            Ok(())
        }
        ["questions", count, slow] => questions::run(count.parse().ok()?, slow.parse().ok()?),
        ["growth", count, plot] => growth::run(count.parse().ok()?, &PathBuf::from(plot)),
        ["once", engine, kind, count] => {
            let engine = engines::named(engine)?;
            engines::once(engine, sheets::Kind::named(kind)?, count.parse().ok()?);
            Ok(())
        }
        ["compare", with, kind, count] => {
            comparison::once(with, sheets::Kind::named(kind)?, count.parse().ok()?)?;
            Ok(())
        }
        ["shortfall", program, kind, count] => {
            questions::once(program, sheets::Kind::named(kind)?, count.parse().ok()?)?;
            Ok(())
        }
        ["practice", call, rations, count] => {
            practice::once(call, rations.parse().ok()?, count.parse().ok()?)?;
            Ok(())
        }
        _ => return None,
    })
}

fn main() -> ExitCode {
    let arguments: Vec<String> = std::env::args().skip(1).collect();
    let words: Vec<&str> = arguments.iter().map(String::as_str).collect();
    match answer(&words) {
        None => {
            eprintln!("{USAGE}");
            ExitCode::from(2)
        }
        Some(Ok(())) => ExitCode::SUCCESS,
        Some(Err(message)) => {
            eprintln!("{message}");
            ExitCode::FAILURE
        }
    }
}
