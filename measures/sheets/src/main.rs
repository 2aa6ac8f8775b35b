//! Writes generated sheets to standard output, packed.

use sheets::mixture::{draws_at, KINDS};
use sheets::pack::pack;
use sheets::{Kind, Sizes, FULL};
use std::io::{self, Write};
use std::process::ExitCode;

const USAGE: &str = "usage: sheets KIND COUNT SEED [SLOTS BLOWERS RATIONS]
       sheets mixture COUNT
KIND is whole-day, mixed, tight, held, overloaded-whole-day, overloaded-mixed or overloaded-short; a mixture has sheets
of all kinds in turn, well-formed or not.";

/// Sheets of every kind of the mixture, one after another.
fn mixed_up(count: usize) -> Vec<Vec<u8>> {
    let make = |place: usize| (KINDS[place % KINDS.len()].make)(&mut draws_at(place));
    (0..count).map(make).collect()
}

fn packed(words: &[String]) -> Option<Vec<u8>> {
    let (kind, numbers) = words.split_first()?;
    if let ("mixture", [count]) = (kind.as_str(), numbers) {
        let texts = mixed_up(count.parse().ok()?);
        return Some(pack(texts.iter().map(Vec::as_slice)));
    }
    let kind = Kind::named(kind)?;
    let numbers: Vec<u32> = numbers
        .iter()
        .map(|w| w.parse().ok())
        .collect::<Option<_>>()?;
    let (count, seed, sizes) = match numbers[..] {
        [count, seed] => (count, seed, FULL),
        [count, seed, slots, blowers, rations] => {
            let sizes = Sizes {
                slots,
                blowers,
                rations,
            };
            (count, seed, sizes)
        }
        _ => return None,
    };
    let sheets = sheets::sheets(kind, sizes, count as usize, seed);
    let texts: Vec<Vec<u8>> = sheets.iter().map(|sheet| sheet.text()).collect();
    Some(pack(texts.iter().map(Vec::as_slice)))
}

fn main() -> ExitCode {
    let words: Vec<String> = std::env::args().skip(1).collect();
    let Some(stream) = packed(&words) else {
        eprintln!("{USAGE}");
        return ExitCode::FAILURE;
    };
    match io::stdout().write_all(&stream) {
        Ok(()) => ExitCode::SUCCESS,
        Err(_) => ExitCode::FAILURE,
    }
}
