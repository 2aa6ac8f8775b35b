//! Plans the feed sheet in a file, or on standard input, and prints when each blower is idle and what the day costs, or the slots that show why the
//! sheet is held.
//!
//!     cargo run --example idle -- ../../examples/four_slots.sheet
use kiwimound::{Sheet, State};
use std::error::Error;
use std::io::Read;
use std::process::ExitCode;
use std::{env, fs, io};

fn print_idle() -> Result<(), Box<dyn Error>> {
    let mut bytes = Vec::new();
    match env::args_os().nth(1) {
        Some(path) => bytes = fs::read(path)?,
        None => {
            io::stdin().read_to_end(&mut bytes)?;
        }
    }
    let plan = Sheet::read(bytes)?.plan()?;
    for s in plan.stretches() {
        let state = match s.state {
            State::Off => "off",
            State::IdleOn => "on",
            State::Busy => continue,
        };
        println!("blower {} idle {} to {} {state}", s.blower, s.first, s.last);
    }
    println!("bill {} cents", plan.bill());
    Ok(())
}

fn main() -> ExitCode {
    match print_idle() {
        Ok(()) => ExitCode::SUCCESS,
        Err(reason) => {
            println!("{reason}");
            ExitCode::FAILURE
        }
    }
}
