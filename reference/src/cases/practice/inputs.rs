//! Inputs of the program: seeds, and what is none.

use super::seeds::PROGRAM_SEEDS;
use crate::sheet::{field_text, FIELD};

/// Seeds of the program, each number of digits among them.
const FIELD_SEEDS: [u32; 16] = [
    0,
    1,
    2,
    9,
    10,
    21,
    99,
    100,
    133,
    999,
    1_000,
    9_999,
    10_000,
    12_345,
    PROGRAM_SEEDS - 2,
    PROGRAM_SEEDS - 1,
];

/// Inputs that are no seed.
pub const OTHER_INPUTS: &[&[u8]] = &[
    b"",
    b"\n",
    b" ",
    b"1",
    b"1\n",
    // Five columns, as seeds had before request 110, and seven.
    b"    0\n",
    b"    1\n",
    b"   21\n",
    b"12345\n",
    b"99999\n",
    b"      1\n",
    b"  99999\n",
    b"0012345\n",
    b"1000000\n",
    // Six columns, and a number above the last seed.
    b"100000\n",
    b"100001\n",
    b"100021\n",
    b"123456\n",
    b"131072\n",
    b"165535\n",
    b"250000\n",
    b"900000\n",
    b"999999\n",
    // No closing byte, another one, and bytes besides the closing one.
    b"     1",
    b" 12345",
    b"123456",
    b"     1\0",
    b"     1\r",
    b"     1 ",
    b"     10",
    b"     1\r\n",
    b"    1\r\n",
    b"     1\n\n",
    b"     1\n ",
    b"     1\n\0",
    b"\n     1",
    b"\n    1\n",
    // Two lines, and lines of four fields.
    b"     1\n     2\n",
    b"     1\n     1\n",
    b"     1     0     0     0\n",
    b"    1    0    0    0\n",
    // Leading zeros; blanks after a digit, between digits and alone.
    b"    01\n",
    b"000000\n",
    b"000001\n",
    b"012345\n",
    b"    00\n",
    b"    1 \n",
    b"1     \n",
    b"1 2345\n",
    b" 1 2  \n",
    b"      \n",
    // Bytes that are no digits.
    b"    -1\n",
    b"    +1\n",
    b"\t    1\n",
    b"   1.0\n",
    b"   0x1\n",
];

/// The longest input: the most that the gate program has room for.
pub const LONG_INPUT: u32 = 70_000;

/// Lengths of long inputs. The first 7 bytes are a seed and its closing byte; of 263 and of
/// 65,543 bytes a narrower number than the length itself would say that there are 7.
pub const LONG_INPUTS: [u32; 13] = [
    0, 1, 5, 6, 7, 8, 14, 25, 263, 65_536, 65_537, 65_543, LONG_INPUT,
];

/// Bytes at and beside the edges of what a field holds.
const ODD_BYTES: [u8; 14] = [0, 9, 10, 13, 31, 32, 33, 47, 48, 57, 58, 128, 176, 255];

/// The input that asks for a seed.
pub fn field(seed: u32) -> Vec<u8> {
    [&field_text(seed)[..], b"\n"].concat()
}

/// An input of so many bytes: seed 1 in its field, the closing byte, then blanks.
pub fn long_input(length: usize) -> Vec<u8> {
    let mut input = field(1);
    input.resize(length, b' ');
    input
}

/// Each odd byte in each place of an input, the closing one included; and each digit in the
/// first column before five digits, where none makes a seed.
pub fn odd_inputs() -> Vec<Vec<u8>> {
    let digits = (b'0'..=b'9').map(|digit| [&[digit], &b"12345\n"[..]].concat());
    let mut inputs: Vec<Vec<u8>> = digits.collect();
    for at in 0..=FIELD {
        for odd in ODD_BYTES {
            let mut input = field(407);
            input[at] = odd;
            inputs.push(input);
        }
    }
    inputs
}

/// The inputs that are tried on the program itself: seeds, and what is none.
pub fn program_inputs() -> Vec<Vec<u8>> {
    let mut inputs: Vec<Vec<u8>> = FIELD_SEEDS.into_iter().map(field).collect();
    inputs.extend(OTHER_INPUTS.iter().map(|input| input.to_vec()));
    inputs
}

#[cfg(test)]
mod tests {
    use super::*;
    use crate::practice::program;

    const REFUSED: &[u8] = b"HELD\n     2     1     0     0\n";

    #[test]
    fn seeds_are_taken_and_all_else_is_refused() {
        let (seeds, others) = (FIELD_SEEDS.len(), OTHER_INPUTS.len());
        let outputs: Vec<Vec<u8>> = program_inputs().iter().map(|i| program(i)).collect();
        assert!(outputs[..seeds].iter().all(|o| o.starts_with(b"    96 ")));
        assert!(outputs[seeds..].iter().all(|o| o == REFUSED));
        assert_eq!(outputs.len(), seeds + others);
    }

    /// Digits, and blanks before them, make other seeds.
    #[test]
    fn some_odd_inputs_are_seeds() {
        let inputs = odd_inputs();
        let seeds = inputs.iter().filter(|i| program(i) != REFUSED).count();
        assert!((5..20).contains(&seeds), "{seeds} of {}", inputs.len());
    }

    #[test]
    fn of_long_inputs_only_that_of_seven_bytes_is_a_seed() {
        for length in LONG_INPUTS {
            let input = long_input(length as usize);
            assert_eq!(input.len(), length as usize);
            assert_eq!(program(&input) == REFUSED, length != 7);
        }
    }
}
