//! A plot of the lines: ratios beside their bars, and the cost of a cell by
//! the size of an image.

use crate::task::Way;
use crate::{timed, Line};

const WIDTH: f64 = 980.0;
const LEFT: f64 = 310.0;
const ROW: f64 = 16.0;
const SCALE: f64 = 80.0;

pub fn svg(lines: &[Line]) -> String {
    let bars: Vec<(&Line, f64)> = lines
        .iter()
        .filter_map(|line| Some((line, line.bar?)))
        .collect();
    let upper = 60.0 + ROW * bars.len() as f64;
    let height = upper + 300.0;
    let mut out = format!(
        "<svg xmlns=\"http://www.w3.org/2000/svg\" viewBox=\"0 0 {WIDTH} {height}\" \
         font-family=\"sans-serif\" font-size=\"11\">\n\
         <rect width=\"100%\" height=\"100%\" fill=\"white\"/>\n"
    );
    let key = if timed(lines) {
        "dark: instructions, light: time, line: bar"
    } else {
        "by instructions; line: bar"
    };
    let title = format!("Proved reader: times the plain one ({key})");
    out += &text(10.0, 18.0, &title);
    for (n, (line, bar)) in bars.iter().enumerate() {
        ratio_row(&mut out, line, *bar, 34.0 + ROW * n as f64);
    }
    curves(&mut out, lines, upper + 20.0);
    out += "</svg>\n";
    out
}

fn text(x: f64, y: f64, words: &str) -> String {
    format!("<text x=\"{x:.1}\" y=\"{y:.1}\">{words}</text>\n")
}

fn ratio_row(out: &mut String, line: &Line, bar: f64, y: f64) {
    *out += &text(
        10.0,
        y + 10.0,
        &format!("{}, {}", line.name, line.way.name()),
    );
    let bars = [
        (&line.times, "#9db8d6", 11.0),
        (&line.counts, "#2b5c8a", 5.0),
    ];
    for (numbers, colour, high) in bars {
        if let Some(ratio) = Line::to_plain(numbers) {
            let wide = (ratio * SCALE).min(WIDTH - LEFT - 10.0);
            *out += &format!(
                "<rect x=\"{LEFT}\" y=\"{:.1}\" width=\"{wide:.1}\" height=\"{high}\" fill=\"{colour}\"/>\n",
                y + (11.0 - high) / 2.0
            );
        }
    }
    let x = LEFT + bar * SCALE;
    *out += &format!(
        "<line x1=\"{x:.1}\" x2=\"{x:.1}\" y1=\"{y:.1}\" y2=\"{:.1}\" stroke=\"#c0392b\" stroke-width=\"2\"/>\n",
        y + 11.0
    );
}

/// Nanoseconds a cell of a whole read, or instructions where there are no
/// times, by the logarithm of the cells.
fn curves(out: &mut String, lines: &[Line], top: f64) {
    let sized: Vec<&Line> = lines
        .iter()
        .filter(|line| line.sized && line.way == Way::Read)
        .collect();
    let timed = timed(lines);
    let costs = |line: &Line| [0, 1].map(|n| if timed { line.times[n] } else { line.counts[n] });
    let most = sized
        .iter()
        .flat_map(|line| costs(line).into_iter().flatten())
        .fold(1.0, |most: f64, cost| most.max(cost));
    let (bottom, right) = (top + 240.0, WIDTH - 120.0);
    let unit = if timed { "ns" } else { "instructions" };
    let title = format!("Whole read: {unit} a cell, by cells (logarithmic)");
    *out += &text(10.0, top, &title);
    *out += &format!(
        "<path d=\"M{LEFT} {:.1} V{bottom:.1} H{right:.1}\" fill=\"none\" stroke=\"black\"/>\n",
        top + 10.0
    );
    let x_of = |cells: usize| LEFT + ((cells as f64).log2() - 12.0) / 10.0 * (right - LEFT);
    let y_of = |cost: f64| bottom - cost / most * 220.0;
    for mark in 0..=4 {
        let cost = most * f64::from(mark) / 4.0;
        *out += &text(LEFT - 45.0, y_of(cost) + 4.0, &format!("{cost:.1}"));
    }
    let mut labels: Vec<(f64, String)> = Vec::new();
    for (kind, colour) in [("u16", "#2b5c8a"), ("f32", "#c07020")] {
        for (reader, name) in [(0, "proved"), (1, "plain")] {
            let points: Vec<(f64, f64)> = sized
                .iter()
                .filter(|line| line.name.starts_with(kind))
                .filter_map(|line| Some((x_of(line.cells), y_of(costs(line)[reader]?))))
                .collect();
            let Some(&(_, y)) = points.last() else {
                continue;
            };
            let path: Vec<String> = points
                .iter()
                .map(|(x, y)| format!("{x:.1},{y:.1}"))
                .collect();
            let dashes = if reader == 1 {
                " stroke-dasharray=\"4 3\""
            } else {
                ""
            };
            *out += &format!(
                "<polyline points=\"{}\" fill=\"none\" stroke=\"{colour}\" stroke-width=\"2\"{dashes}/>\n",
                path.join(" ")
            );
            labels.push((y + 4.0, format!("{kind} {name}")));
        }
    }
    // Labels stand apart where curves end close together.
    labels.sort_by(|a, b| a.0.total_cmp(&b.0));
    let mut above = f64::MIN;
    for (y, words) in labels {
        let y = y.max(above + 12.0);
        *out += &text(right + 6.0, y, &words);
        above = y;
    }
    for side in [64usize, 128, 256, 512, 1024, 2048] {
        let label = format!("{side}x{side}");
        *out += &text(x_of(side * side) - 18.0, bottom + 16.0, &label);
    }
}
