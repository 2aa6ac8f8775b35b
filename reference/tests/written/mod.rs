//! Sheets and listings as the tests write them: lines of four numbers, parted by strokes.

use reference::sheet::line_text;

/// The bytes of these lines.
pub fn text(lines: &str) -> Vec<u8> {
    let line = |text: &str| {
        let words = text.split_whitespace().map(|word| word.parse());
        let numbers: Vec<u32> = words.map(|number| number.expect("a number")).collect();
        line_text(numbers.try_into().expect("four numbers"))
    };
    lines.split('/').flat_map(line).collect()
}
