//! Plans the feed sheet in a file, and prints each meal of a tank with the slots in which it is fed.
//!
//!     cargo run --example meals -- ../../examples/two_meals.sheet 1
use kiwimound::Sheet;
use std::error::Error;
use std::process::ExitCode;
use std::{env, fs};

fn print_meals(path: &str, tank: &str) -> Result<(), Box<dyn Error>> {
    let tank = tank.parse()?;
    let sheet = Sheet::read(fs::read(path)?)?;
    let plan = sheet.plan()?;
    for meal in sheet.meals(tank) {
        print!("tank {tank}, slots {} to {}, fed in", meal.first, meal.last);
        // the windows of a tank's meals don't overlap, so a slot tells the meal
        let window = meal.first..=meal.last;
        for f in plan.feedings() {
            if f.tank == tank && window.contains(&f.slot) {
                print!(" {}", f.slot);
            }
        }
        println!();
    }
    Ok(())
}

fn main() -> ExitCode {
    let words: Vec<String> = env::args().skip(1).collect();
    let [path, tank] = &words[..] else {
        eprintln!("usage: meals SHEET TANK");
        return ExitCode::FAILURE;
    };
    match print_meals(path, tank) {
        Ok(()) => ExitCode::SUCCESS,
        Err(reason) => {
            println!("{reason}");
            ExitCode::FAILURE
        }
    }
}
