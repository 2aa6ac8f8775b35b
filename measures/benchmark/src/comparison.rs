//! Sheets compared with each other.

use crate::engines;
use sheets::{Kind, FULL};
use std::hint::black_box;

/// Compares each full sheet of a kind once: with the next, the last with the first, so that each
/// is planned twice; or with itself.
pub fn once(with: &str, kind: Kind, count: usize) -> Option<()> {
    let step = match with {
        "next" => 1,
        "itself" => 0,
        _ => return None,
    };
    let sheets = engines::texts(kind, FULL, count);
    for (i, sheet) in sheets.iter().enumerate() {
        black_box(library::compare(sheet, &sheets[(i + step) % count]));
    }
    Some(())
}
