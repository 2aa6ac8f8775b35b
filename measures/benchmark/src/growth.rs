//! How the cost of planning grows with slots, blowers and rations.

use crate::engines::{buffer, library, texts};
use crate::plot::{plot, Line, Panel};
use crate::stats::{time, Times};
use sheets::{Kind, Sizes, FULL};
use std::hint::black_box;
use std::path::Path;
use std::time::Duration;

/// A sheet's least time of so many passes over all sheets counts.
const PASSES: usize = 9;
const KINDS: [Kind; 2] = [Kind::WholeDay, Kind::Mixed];

/// The sheets of one kind and size, and their times so far.
struct Point {
    sheets: Vec<Vec<u8>>,
    least: Vec<Duration>,
}

impl Point {
    fn new(kind: Kind, sizes: Sizes, count: usize) -> Self {
        Point {
            sheets: texts(kind, sizes, count),
            least: vec![Duration::MAX; count],
        }
    }

    fn pass(&mut self, out: &mut [u8]) {
        for (sheet, least) in self.sheets.iter().zip(&mut self.least) {
            let taken = time(|| {
                black_box(library(sheet, out));
            });
            *least = taken.min(*least);
        }
    }

    fn median(self) -> f64 {
        Times::of(self.least).median()
    }
}

/// Sizes in which one number grows and the others are full.
fn series() -> [(&'static str, Vec<(u32, Sizes)>); 3] {
    let sizes = |values: &[u32], set: fn(&mut Sizes, u32)| {
        let one = |&value: &u32| {
            let mut sizes = FULL;
            set(&mut sizes, value);
            (value, sizes)
        };
        values.iter().map(one).collect()
    };
    [
        (
            "slots",
            sizes(&[12, 24, 36, 48, 60, 72, 84, 96], |s, v| s.slots = v),
        ),
        (
            "blowers",
            sizes(&[1, 2, 3, 4, 5, 6, 7, 8], |s, v| s.blowers = v),
        ),
        (
            "rations",
            sizes(&[8, 16, 24, 32, 40, 48, 56, 64], |s, v| s.rations = v),
        ),
    ]
}

pub fn run(count: usize, file: &Path) -> Result<(), String> {
    println!("Growth: median microseconds of processor time to plan a sheet, {count} sheets each;");
    println!("one of slots, blowers and rations changes, the others are 96, 8 and 64.\n");
    println!("| | | whole-day windows | mixed windows |");
    println!("|---|---|---|---|");
    let points = |sizes| KINDS.map(|kind| Point::new(kind, sizes, count));
    let mut all = series().map(|(name, sizes)| {
        let sizes = sizes.into_iter();
        let row: Vec<_> = sizes.map(|(value, sizes)| (value, points(sizes))).collect();
        (name, row)
    });
    let mut out = buffer();
    for _ in 0..PASSES {
        let rows = all.iter_mut().flat_map(|(_, rows)| rows);
        for point in rows.flat_map(|(_, points)| points) {
            point.pass(&mut out);
        }
    }
    let panels = all.map(|(name, rows)| panel(name, rows));
    std::fs::write(file, plot("microseconds to plan a sheet", &panels))
        .map_err(|error| format!("{}: {error}", file.display()))
}

/// Prints the rows of one number that grows, and gives them as lines of the plot.
fn panel(name: &'static str, rows: Vec<(u32, [Point; 2])>) -> Panel {
    let mut lines = KINDS.map(|kind| Line {
        name: kind.name(),
        points: Vec::new(),
    });
    for (value, points) in rows {
        let medians = points.map(Point::median);
        let [one, other] = medians;
        println!("| {value} | {name} | {one:.1} | {other:.1} |");
        for (line, median) in lines.iter_mut().zip(medians) {
            line.points.push((f64::from(value), median));
        }
    }
    Panel { name, lines }
}
