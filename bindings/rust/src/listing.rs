//! The lines of a listing as numbers.
use crate::ffi::{FIELD_COLUMNS, LINE_BYTES};

const OPENING_BYTES: usize = 5;

/// The four numbers of each line after the opening word.
pub fn lines_after_word(listing: &[u8]) -> impl Iterator<Item = [u32; 4]> + '_ {
    lines(&listing[OPENING_BYTES..])
}

/// The four numbers of each line. The bytes are the library's, which writes fields in their stated form alone.
pub fn lines(text: &[u8]) -> impl Iterator<Item = [u32; 4]> + '_ {
    text.chunks_exact(LINE_BYTES)
        .map(|line| [0, 1, 2, 3].map(|f| number(&line[FIELD_COLUMNS * f..][..FIELD_COLUMNS])))
}

fn number(field: &[u8]) -> u32 {
    field
        .iter()
        .filter(|&&c| c != b' ')
        .fold(0, |n, &c| 10 * n + u32::from(c - b'0'))
}
