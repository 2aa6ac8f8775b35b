//! The command line of the reference implementation; see README.md.

use reference::cases::{self, Case};
use reference::causes;
use reference::damage;
use reference::draws::Draws;
use reference::generate::{self, FULL};
use reference::listing;
use reference::practice;
use reference::through::{all_seed_inputs, seed_inputs, sheet_inputs, through, Expected, Input};
use std::io::{self, Read, Write};
use std::process::ExitCode;

const USAGE: &str = "usage: reference plan < sheet > listing
       reference why < sheet > listing
       reference practice < seed > sheet
       reference sheet KIND SEED > sheet
       reference cases STREAM-in | STREAM-out
       reference through PLANNER [WHY [PRACTICE]]
       reference seeds-through PRACTICE
A seed is a number from 0 to 99,999 in a field of six columns, closed by byte 10.
KIND is random, whole-day, tight, crowded, jagged, held, heavy or damaged; SEED is a number
of 32 bits.
STREAM is sheet, placing, plan, days, causes, practice, seeds or halls.";

fn main() -> ExitCode {
    let arguments: Vec<String> = std::env::args().skip(1).collect();
    let words: Vec<&str> = arguments.iter().map(String::as_str).collect();
    let Some(output) = answer(&words) else {
        eprintln!("{USAGE}");
        return ExitCode::FAILURE;
    };
    match output.and_then(|bytes| io::stdout().write_all(&bytes)) {
        Ok(()) => ExitCode::SUCCESS,
        Err(error) => {
            eprintln!("reference: {error}");
            ExitCode::FAILURE
        }
    }
}

/// The output that the words of the command line ask for, none if they ask nothing.
fn answer(words: &[&str]) -> Option<io::Result<Vec<u8>>> {
    match *words {
        ["plan"] => Some(read_input().map(|bytes| listing::program(&bytes))),
        ["why"] => Some(read_input().map(|bytes| causes::why(&bytes))),
        ["practice"] => Some(read_input().map(|bytes| practice::program(&bytes))),
        ["sheet", kind, seed] => generated(kind, seed.parse().ok()?).map(Ok),
        ["cases", file] => case_file(file).map(Ok),
        ["through", ref paths @ ..] => tried_all(paths),
        ["seeds-through", path] => Some(tried(path, (all_seed_inputs, practice::program))),
        _ => None,
    }
}

/// The programs, in the order in which `through` is given them: the inputs of each, and what
/// it must write.
type Trial = (fn() -> Vec<Input>, Expected);
const TRIALS: [Trial; 3] = [
    (sheet_inputs, listing::program),
    (sheet_inputs, causes::why),
    (seed_inputs, practice::program),
];

/// What is said of each of these programs, none if there is none or too many.
fn tried_all(paths: &[&str]) -> Option<io::Result<Vec<u8>>> {
    if paths.is_empty() || paths.len() > TRIALS.len() {
        return None;
    }
    let each = paths.iter().zip(TRIALS);
    let said: io::Result<Vec<Vec<u8>>> = each.map(|(path, trial)| tried(path, trial)).collect();
    Some(said.map(|said| said.concat()))
}

/// How many inputs a program answered as expected; an error at the first that it did not.
fn tried(path: &str, (inputs, expected): Trial) -> io::Result<Vec<u8>> {
    let inputs = inputs();
    match through(path, &inputs, expected)? {
        Ok(()) => {
            let count = inputs.len();
            Ok(format!("{count} inputs, each answered as expected\n").into_bytes())
        }
        Err(input) => Err(io::Error::other(format!("another output for\n{input}"))),
    }
}

/// Makes the output expected for cases.
type Answering = fn(&[Case]) -> Vec<u8>;

/// A case file: the input or the expected output of a stream of cases.
fn case_file(file: &str) -> Option<Vec<u8>> {
    let (name, side) = file.split_once('-')?;
    let (cases, output): (Vec<Case>, Answering) = match name {
        "sheet" => (cases::sheet::cases(), cases::sheet::output),
        "placing" => (cases::placing::cases(), cases::placing::output),
        "plan" => (cases::plan::cases(), cases::plan::output),
        "days" => (cases::days::cases(), cases::days::output),
        "causes" => (cases::causes::cases(), cases::causes::output),
        "practice" => (cases::practice::cases(), cases::practice::output),
        "seeds" => (cases::practice::all_seeds(), cases::practice::output),
        "halls" => (cases::halls::cases(), cases::halls::output),
        _ => return None,
    };
    match side {
        "in" => Some(cases::stream(&cases)),
        "out" => Some(output(&cases)),
        _ => None,
    }
}

/// The bytes of a generated sheet, none if there is no such kind.
fn generated(kind: &str, seed: u32) -> Option<Vec<u8>> {
    let draws = &mut Draws::new(seed);
    let sheet = match kind {
        "random" => generate::random_sheet(draws, FULL),
        "whole-day" => generate::whole_day_sheet(draws, FULL),
        "tight" => generate::tight_sheet(draws, FULL),
        "crowded" => generate::crowded_sheet(draws, FULL),
        "jagged" => generate::jagged_sheet(draws, FULL),
        "held" => generate::held_sheet(draws, FULL),
        "heavy" => generate::heavy_sheet(draws, FULL),
        "damaged" => return Some(damage::damaged_sheet(draws, FULL)),
        _ => return None,
    };
    Some(sheet.text())
}

fn read_input() -> io::Result<Vec<u8>> {
    let mut bytes = Vec::new();
    io::stdin().read_to_end(&mut bytes)?;
    Ok(bytes)
}
