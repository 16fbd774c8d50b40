//! A small SVG writer: panels with lines over a linear or a logarithmic axis.

use std::fmt::Write;

const WIDTH: f64 = 330.0;
const HEIGHT: f64 = 200.0;
const LEFT: f64 = 52.0;
const TOP: f64 = 34.0;
const RIGHT: f64 = 14.0;
const BOTTOM: f64 = 40.0;
const COLOURS: [&str; 4] = ["#0b6e4f", "#c8553d", "#5b6c9d", "#888888"];

/// A line of a panel: a name, and points.
pub struct Series {
    pub name: String,
    pub points: Vec<(f64, f64)>,
}

pub struct Panel {
    pub title: String,
    pub x_label: String,
    pub log_x: bool,
    pub x_ticks: Vec<f64>,
    pub series: Vec<Series>,
}

/// The lowest of 1, 2, 5, 10, 20, .. that is not below `value`.
fn round_up(value: f64) -> f64 {
    let power = 10f64.powf(value.max(1.0).log10().floor());
    let steps = [1.0, 2.0, 5.0, 10.0];
    let step = steps.iter().find(|&step| step * power >= value);
    step.unwrap_or(&10.0) * power
}

fn text(svg: &mut String, x: f64, y: f64, anchor: &str, size: u32, words: &str) {
    let _ = writeln!(
        svg,
        "<text x=\"{x:.1}\" y=\"{y:.1}\" text-anchor=\"{anchor}\" font-size=\"{size}\">{words}</text>"
    );
}

fn line(svg: &mut String, from: (f64, f64), to: (f64, f64), colour: &str) {
    let _ = writeln!(
        svg,
        "<line x1=\"{:.1}\" y1=\"{:.1}\" x2=\"{:.1}\" y2=\"{:.1}\" stroke=\"{colour}\"/>",
        from.0, from.1, to.0, to.1
    );
}

fn panel(svg: &mut String, panel: &Panel, left: f64, top: f64) {
    let scale = |x: f64| if panel.log_x { x.log2() } else { x };
    let all = || panel.series.iter().flat_map(|series| &series.points);
    let low = all().map(|p| scale(p.0)).fold(f64::MAX, f64::min);
    let high = all().map(|p| scale(p.0)).fold(f64::MIN, f64::max);
    let most = round_up(all().map(|p| p.1).fold(1.0, f64::max));
    let (inner_width, inner_height) = (WIDTH - LEFT - RIGHT, HEIGHT - TOP - BOTTOM);
    let x_at = |x: f64| left + LEFT + (scale(x) - low) / (high - low).max(1e-9) * inner_width;
    let y_at = |y: f64| top + TOP + inner_height - y / most * inner_height;

    text(svg, left + LEFT, top + 18.0, "start", 13, &panel.title);
    for step in 0..=4 {
        let y = most * step as f64 / 4.0;
        let from = (left + LEFT, y_at(y));
        line(svg, from, (left + WIDTH - RIGHT, y_at(y)), "#dddddd");
        text(
            svg,
            left + LEFT - 6.0,
            y_at(y) + 4.0,
            "end",
            10,
            &format!("{y}"),
        );
    }
    let bottom = y_at(0.0);
    for &tick in &panel.x_ticks {
        line(
            svg,
            (x_at(tick), bottom),
            (x_at(tick), bottom + 4.0),
            "#444444",
        );
        text(
            svg,
            x_at(tick),
            bottom + 15.0,
            "middle",
            10,
            &format!("{tick}"),
        );
    }
    let middle = left + LEFT + inner_width / 2.0;
    text(svg, middle, bottom + 31.0, "middle", 11, &panel.x_label);
    for (at, series) in panel.series.iter().enumerate() {
        let points: Vec<String> = series
            .points
            .iter()
            .map(|&(x, y)| format!("{:.1},{:.1}", x_at(x), y_at(y)))
            .collect();
        let _ = writeln!(
            svg,
            "<polyline points=\"{}\" fill=\"none\" stroke=\"{}\" stroke-width=\"2\"/>",
            points.join(" "),
            COLOURS[at % COLOURS.len()]
        );
    }
}

/// The panels in so many columns, with one legend for all.
pub fn svg(title: &str, panels: &[Panel], columns: usize) -> String {
    let rows = panels.len().div_ceil(columns);
    let (width, height) = (columns as f64 * WIDTH + 12.0, rows as f64 * HEIGHT + 60.0);
    let mut svg = String::new();
    let _ = writeln!(
        svg,
        "<svg xmlns=\"http://www.w3.org/2000/svg\" viewBox=\"0 0 {width} {height}\" \
         width=\"{width}\" height=\"{height}\" font-family=\"sans-serif\" fill=\"#222222\">"
    );
    let _ = writeln!(
        svg,
        "<rect width=\"{width}\" height=\"{height}\" fill=\"white\"/>"
    );
    text(&mut svg, 16.0, 24.0, "start", 15, title);
    for (at, series) in panels[0].series.iter().enumerate() {
        let x = 20.0 + 110.0 * at as f64;
        let _ = writeln!(
            svg,
            "<rect x=\"{x}\" y=\"38\" width=\"18\" height=\"4\" fill=\"{}\"/>",
            COLOURS[at % COLOURS.len()]
        );
        text(&mut svg, x + 24.0, 44.0, "start", 12, &series.name);
    }
    for (at, one) in panels.iter().enumerate() {
        let left = (at % columns) as f64 * WIDTH;
        let top = (at / columns) as f64 * HEIGHT + 56.0;
        panel(&mut svg, one, left, top);
    }
    svg.push_str("</svg>\n");
    svg
}

#[cfg(test)]
mod tests {
    use super::*;

    #[test]
    fn rounding() {
        assert_eq!(round_up(1.0), 1.0);
        assert_eq!(round_up(41.0), 50.0);
        assert_eq!(round_up(170.0), 200.0);
        assert_eq!(round_up(501.0), 1000.0);
    }
}
