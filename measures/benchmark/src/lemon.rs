//! The method over a max-flow library, a program of its own (flow/lemon.cc).

use crate::engines::{buffer, library};
use crate::planning::SLOW_PASSES;
use crate::stats::Times;
use sheets::pack::pack;
use std::io::Write;
use std::path::Path;
use std::process::{Command, Stdio};
use std::time::Duration;

/// Times until the counts are known and in all. Each listing must be the library's; a
/// held sheet has none.
pub fn plan(program: &Path, sheets: &[Vec<u8>]) -> Result<(Times, Times), String> {
    let input = pack(sheets.iter().map(Vec::as_slice));
    let mut counts = vec![Duration::MAX; sheets.len()];
    let mut whole = counts.clone();
    for _ in 0..SLOW_PASSES {
        let output =
            run(program, &input).map_err(|error| format!("{}: {error}", program.display()))?;
        pass(&output, sheets, &mut counts, &mut whole)?;
    }
    Ok((Times::of(counts), Times::of(whole)))
}

/// Takes over the times of one run of the program where they are less.
fn pass(
    output: &[u8],
    sheets: &[Vec<u8>],
    counts: &mut [Duration],
    whole: &mut [Duration],
) -> Result<(), String> {
    let mut rest = output;
    let mut own = buffer();
    for (at, sheet) in sheets.iter().enumerate() {
        counts[at] = counts[at].min(Duration::from_nanos(number(&mut rest, 8)));
        whole[at] = whole[at].min(Duration::from_nanos(number(&mut rest, 8)));
        let length = number(&mut rest, 4) as usize;
        let (text, after) = rest.split_at(length);
        rest = after;
        let (number, _, length) = library(sheet, &mut own);
        let expected = if number == 0 { &own[..length] } else { &[] };
        if text != expected {
            return Err("LEMON's flow gives another plan".to_string());
        }
    }
    Ok(())
}

fn run(program: &Path, input: &[u8]) -> std::io::Result<Vec<u8>> {
    let mut child = Command::new(program)
        .stdin(Stdio::piped())
        .stdout(Stdio::piped())
        .spawn()?;
    let mut stdin = child.stdin.take().expect("it is piped");
    let input = input.to_vec();
    let writer = std::thread::spawn(move || stdin.write_all(&input));
    let output = child.wait_with_output()?;
    writer.join().expect("writing does not panic")?;
    Ok(output.stdout)
}

/// A number of so many bytes, the lowest first.
fn number(rest: &mut &[u8], bytes: usize) -> u64 {
    let (own, after) = rest.split_at(bytes);
    *rest = after;
    own.iter()
        .rev()
        .fold(0, |value, &b| value << 8 | u64::from(b))
}
