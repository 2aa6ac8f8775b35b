//! A plot of lines in panels beside each other, as SVG text.

use std::fmt::Write;

pub struct Line {
    pub name: &'static str,
    pub points: Vec<(f64, f64)>,
}

pub struct Panel {
    pub name: &'static str,
    pub lines: [Line; 2],
}

const WIDTH: f64 = 240.0;
const HEIGHT: f64 = 180.0;
const LEFT: f64 = 50.0;
const TOP: f64 = 40.0;
const GAP: f64 = 30.0;
const COLOURS: [&str; 2] = ["#1f5fa8", "#c05a1c"];

/// A round number at or above the given one.
fn round_up(value: f64) -> f64 {
    let power = 10f64.powf(value.log10().floor());
    let steps = [1.0, 2.0, 3.0, 4.0, 5.0, 6.0, 8.0, 10.0];
    let fits = steps.into_iter().find(|step| step * power >= value);
    fits.unwrap_or(10.0) * power
}

fn text(svg: &mut String, x: f64, y: f64, anchor: &str, words: &str) {
    writeln!(
        svg,
        r##"<text x="{x:.1}" y="{y:.1}" text-anchor="{anchor}">{words}</text>"##
    )
    .expect("a string takes any text");
}

fn stroke(svg: &mut String, from: (f64, f64), to: (f64, f64), colour: &str) {
    let ((x1, y1), (x2, y2)) = (from, to);
    writeln!(
        svg,
        r##"<line x1="{x1:.1}" y1="{y1:.1}" x2="{x2:.1}" y2="{y2:.1}" stroke="{colour}"/>"##
    )
    .expect("a string takes any text");
}

/// The panels share the vertical axis, which begins at 0.
pub fn plot(title: &str, panels: &[Panel]) -> String {
    let all = panels.iter().flat_map(|panel| &panel.lines);
    let highest = all.flat_map(|line| &line.points).map(|&(_, y)| y);
    let top = round_up(highest.fold(1.0, f64::max));
    let width = LEFT + panels.len() as f64 * (WIDTH + GAP);
    let height = TOP + HEIGHT + 45.0;
    let mut svg = format!(
        r##"<svg xmlns="http://www.w3.org/2000/svg" width="{width}" height="{height}" viewBox="0 0 {width} {height}" font-family="sans-serif" font-size="11">
<rect width="{width}" height="{height}" fill="white"/>
"##
    );
    text(&mut svg, LEFT, 16.0, "start", title);
    for (i, line) in panels[0].lines.iter().enumerate() {
        let x = LEFT + 220.0 + 160.0 * i as f64;
        stroke(&mut svg, (x, 12.0), (x + 20.0, 12.0), COLOURS[i]);
        text(
            &mut svg,
            x + 26.0,
            16.0,
            "start",
            &format!("{} windows", line.name),
        );
    }
    for (i, panel) in panels.iter().enumerate() {
        let left = LEFT + i as f64 * (WIDTH + GAP);
        let right = panel.lines[0]
            .points
            .iter()
            .map(|p| p.0)
            .fold(1.0, f64::max);
        let at = |(x, y): (f64, f64)| (left + x / right * WIDTH, TOP + HEIGHT - y / top * HEIGHT);
        for step in 0..=4 {
            let y = top * f64::from(step) / 4.0;
            stroke(&mut svg, at((0.0, y)), at((right, y)), "#dddddd");
            if i == 0 {
                let (x, place) = at((0.0, y));
                text(&mut svg, x - 6.0, place + 4.0, "end", &format!("{y:.0}"));
            }
        }
        for &(x, _) in &panel.lines[0].points {
            let (place, y) = at((x, 0.0));
            text(&mut svg, place, y + 16.0, "middle", &format!("{x:.0}"));
        }
        text(
            &mut svg,
            left + WIDTH / 2.0,
            TOP + HEIGHT + 34.0,
            "middle",
            panel.name,
        );
        for (line, colour) in panel.lines.iter().zip(COLOURS) {
            let points = line.points.iter().map(|&point| {
                let (x, y) = at(point);
                format!("{x:.1},{y:.1}")
            });
            let points = points.collect::<Vec<_>>().join(" ");
            writeln!(
                svg,
                r##"<polyline points="{points}" fill="none" stroke="{colour}" stroke-width="1.5"/>"##
            )
            .expect("a string takes any text");
        }
    }
    svg + "</svg>\n"
}

#[cfg(test)]
mod tests {
    use super::*;

    #[test]
    fn the_axis_ends_above_every_point() {
        for (value, top) in [(1.0, 1.0), (7.0, 8.0), (99.0, 100.0), (430.0, 500.0)] {
            assert!((round_up(value) - top).abs() < 1e-9);
        }
    }
}
