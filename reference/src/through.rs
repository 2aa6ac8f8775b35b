//! A program of the planner, run on its inputs as a process and held to the output expected.

use crate::cases::{causes, days, practice};
use std::io::{self, Write};
use std::process::{Command, Stdio};
use std::thread;
use std::time::Duration;

/// How an input is handed to the program: at once, or in pieces of so many bytes with a
/// pause after each.
#[derive(Clone, Copy)]
enum Pieces {
    Whole,
    Of(usize),
}

/// An input of a program.
pub struct Input {
    bytes: Vec<u8>,
    pieces: Pieces,
}

impl Input {
    fn whole(bytes: Vec<u8>) -> Self {
        let pieces = Pieces::Whole;
        Input { bytes, pieces }
    }

    fn in_pieces(bytes: Vec<u8>, length: usize) -> Self {
        let pieces = Pieces::Of(length);
        Input { bytes, pieces }
    }
}

/// What a program must write for an input.
pub type Expected = fn(&[u8]) -> Vec<u8>;

/// The inputs of the programs that read a sheet.
pub fn sheet_inputs() -> Vec<Input> {
    let sheets = [days::program_sheets(), causes::program_sheets()].concat();
    let mut inputs: Vec<Input> = sheets.iter().cloned().map(Input::whole).collect();
    // Longer than the program reads at a time, in no form at all.
    for length in [65_536, 65_537, 200_000] {
        inputs.push(Input::whole(vec![b' '; length]));
    }
    for sheet in sheets.into_iter().take(12) {
        inputs.push(Input::in_pieces(sheet.clone(), 1));
        inputs.push(Input::in_pieces(sheet, 30));
    }
    inputs
}

/// The inputs of the program that reads a seed.
pub fn seed_inputs() -> Vec<Input> {
    let fields = practice::program_inputs();
    let mut inputs: Vec<Input> = fields.iter().cloned().map(Input::whole).collect();
    // A seed, and after it more than the program reads at a time.
    for length in [65_536, 65_537, 65_543, 70_000, 200_000] {
        inputs.push(Input::whole(practice::long_input(length)));
    }
    inputs.push(Input::in_pieces(practice::long_input(70_000), 4_096));
    // One that ends, or that goes on, only after a pause.
    for field in fields {
        inputs.push(Input::in_pieces(field.clone(), 1));
        inputs.push(Input::in_pieces(field, 6));
    }
    inputs
}

/// Every seed that the program takes.
pub fn all_seed_inputs() -> Vec<Input> {
    let fields = practice::all_inputs();
    fields.into_iter().map(Input::whole).collect()
}

/// Runs a program on every input, and gives the first whose output is not as expected.
pub fn through(path: &str, inputs: &[Input], expected: Expected) -> io::Result<Result<(), String>> {
    for input in inputs {
        let output = run(path, input)?;
        if output != expected(&input.bytes) {
            return Ok(Err(String::from_utf8_lossy(&input.bytes).into_owned()));
        }
    }
    Ok(Ok(()))
}

/// What the program writes for this input.
fn run(path: &str, input: &Input) -> io::Result<Vec<u8>> {
    let mut command = Command::new(path);
    command.stdin(Stdio::piped()).stdout(Stdio::piped());
    let mut child = command.spawn()?;
    let mut stdin = child.stdin.take().expect("standard input is a pipe");
    match input.pieces {
        Pieces::Whole => write(&mut stdin, &input.bytes)?,
        Pieces::Of(length) => {
            for piece in input.bytes.chunks(length) {
                write(&mut stdin, piece)?;
                thread::sleep(Duration::from_millis(1));
            }
        }
    }
    drop(stdin);
    Ok(child.wait_with_output()?.stdout)
}

/// Writes to the program, which may have read enough and ended.
fn write(stdin: &mut impl Write, bytes: &[u8]) -> io::Result<()> {
    match stdin.write_all(bytes) {
        Err(error) if error.kind() == io::ErrorKind::BrokenPipe => Ok(()),
        written => written,
    }
}
