//! Case files for the gate programs: a stream of cases, and the output expected of
//! a program that answers them one after another.

mod bill;
pub mod causes;
pub mod days;
pub mod halls;
mod meals;
pub mod placing;
pub mod plan;
pub mod practice;
mod shares;
pub mod sheet;
mod sheets;

/// Bytes of a case's header.
const HEADER: usize = 16;

/// One case: an operation, one number and the bytes it works on.
#[derive(Clone, Debug, PartialEq, Eq)]
pub struct Case {
    pub operation: u8,
    pub argument: u32,
    pub payload: Vec<u8>,
}

impl Case {
    pub fn new(operation: u8, argument: u32, payload: impl Into<Vec<u8>>) -> Self {
        Case {
            operation,
            argument,
            payload: payload.into(),
        }
    }

    /// A case whose payload has two parts; the argument is the first one's length.
    pub fn in_parts(operation: u8, first: &[u8], second: &[u8]) -> Self {
        Case::new(operation, first.len() as u32, [first, second].concat())
    }

    /// The two parts of the payload.
    pub fn parts(&self) -> (&[u8], &[u8]) {
        self.payload.split_at(self.argument as usize)
    }
}

/// Marks the end of a stream.
const END: u8 = b'E';

/// The stream: for each case the operation, the argument in five columns, a blank,
/// the payload's length in eight columns, byte 10 and the payload; at the end a
/// header with operation `E`. A header has no fields of a sheet.
pub fn stream(cases: &[Case]) -> Vec<u8> {
    let mut bytes = Vec::new();
    let end = Case::new(END, 0, []);
    for case in cases.iter().chain([&end]) {
        bytes.push(case.operation);
        let numbers = format!("{:>5} {:>8}\n", case.argument, case.payload.len());
        assert_eq!(1 + numbers.len(), HEADER);
        bytes.extend(numbers.into_bytes());
        bytes.extend(&case.payload);
    }
    bytes
}

/// The cases of a stream, up to its `E` header.
pub fn parse(mut bytes: &[u8]) -> Vec<Case> {
    let mut cases = Vec::new();
    loop {
        let (header, rest) = bytes.split_at(HEADER);
        if header[0] == END {
            return cases;
        }
        let (payload, rest) = rest.split_at(decimal(&header[7..15]) as usize);
        cases.push(Case::new(header[0], decimal(&header[1..6]), payload));
        bytes = rest;
    }
}

/// The number in a right-justified column.
fn decimal(column: &[u8]) -> u32 {
    let text = std::str::from_utf8(column).expect("a column is ASCII");
    text.trim_start().parse().expect("a column holds a number")
}

/// Numbers as text, one a line.
fn text_of(numbers: &[u32]) -> Vec<u8> {
    let lines: String = numbers.iter().map(|v| format!("{v}\n")).collect();
    lines.into_bytes()
}

/// The numbers of such a text.
fn numbers_of(text: &[u8]) -> Vec<u32> {
    let text = std::str::from_utf8(text).expect("the numbers are ASCII");
    text.lines()
        .map(|line| line.parse().expect("each line holds a number of 32 bits"))
        .collect()
}

/// The bytes a lent buffer holds before the call: (i × 7 + 3) modulo 256 at index i.
pub fn lent_buffer(length: usize) -> Vec<u8> {
    (0..length).map(|i| (i * 7 + 3) as u8).collect()
}

/// The words a lent placing buffer holds before the call: at index i the value
/// (i × 7 + 3) × 0x0101010101010101 modulo 2^64. The factor brings the number into all eight
/// bytes, so that a word of which only a part is written gives another digest.
pub fn lent_words(length: usize) -> Vec<u64> {
    let word = |i: u64| (i * 7 + 3).wrapping_mul(0x0101_0101_0101_0101);
    (0..length as u64).map(word).collect()
}

/// A digest of a buffer: from 0, h becomes (h × 31 + byte) modulo 65,521.
pub fn digest(bytes: &[u8]) -> u32 {
    bytes
        .iter()
        .fold(0, |h, &b| (h * 31 + u32::from(b)) % 65_521)
}

/// A digest of a placing buffer: from 0, h becomes (h × 31 + word modulo 65,521) modulo
/// 65,521.
pub fn digest_words(words: &[u64]) -> u32 {
    words
        .iter()
        .fold(0, |h, &word| (h * 31 + (word % 65_521) as u32) % 65_521)
}

/// The stream of these cases is parsed to the same cases and is no longer than so many bytes.
#[cfg(test)]
fn assert_streamed(cases: &[Case], most: usize) {
    let bytes = stream(cases);
    assert!(bytes.len() < most);
    assert_eq!(parse(&bytes), cases);
}

#[cfg(test)]
mod tests {
    use super::*;

    #[test]
    fn lent_words_and_their_digest_by_hand() {
        let words = lent_words(38);
        assert_eq!(words.len(), 38);
        assert_eq!(words[0], 0x0303_0303_0303_0303);
        assert_eq!(words[1], 0x0a0a_0a0a_0a0a_0a0a);
        // 262 is 256 + 6: the bytes of 1, one place up, and the bytes of 6.
        assert_eq!(words[37], 0x0707_0707_0707_0706);
        assert_eq!(digest_words(&[]), 0);
        assert_eq!(digest_words(&[2, 65_521, 3]), 2 * 961 + 3);
        // 2^16 is 15 modulo 65,521, so 2^64 is 15^4.
        assert_eq!(digest_words(&[u64::MAX]), 50_625 - 1);
    }
}
