//! The ratios as a dot plot with their spread, written as SVG by hand.

use crate::rows::Row;
use std::fmt::Write;

const LABELS: f64 = 330.0;
/// Beside the plot, for the number of a row that goes to its edge.
const MARGIN: f64 = 40.0;
const PLOT: f64 = 430.0;
const TOP: f64 = 94.0;
const STEP: f64 = 15.0;
const BOTTOM: f64 = 34.0;

/// A scale in powers of two, from a whole one to a whole one.
struct Scale {
    low: i32,
    high: i32,
}

impl Scale {
    /// Holds all that is drawn, and 1/2 to 2.
    fn of(rows: &[Row]) -> Scale {
        let mut scale = Scale { low: -1, high: 1 };
        for row in rows {
            let (ratio, control) = (row.ratio(), row.control());
            scale.low = scale.low.min(ratio.least.min(control.lower).log2().floor() as i32);
            scale.high = scale.high.max(ratio.greatest.max(control.upper).log2().ceil() as i32);
        }
        scale
    }

    fn x(&self, ratio: f64) -> f64 {
        let part = (ratio.log2() - f64::from(self.low)) / f64::from(self.high - self.low);
        LABELS + MARGIN + PLOT * part
    }
}

pub fn svg(rows: &[Row]) -> String {
    let scale = Scale::of(rows);
    let width = LABELS + MARGIN + PLOT + MARGIN;
    let height = TOP + STEP * rows.len() as f64 + BOTTOM;
    let mut svg = head(width, height);
    bands(&mut svg, rows, width);
    axis(&mut svg, &scale, height);
    for (i, row) in rows.iter().enumerate() {
        dot(&mut svg, &scale, row, TOP + STEP * (i as f64 + 0.5));
    }
    svg.push_str("</svg>\n");
    svg
}

fn head(width: f64, height: f64) -> String {
    format!(
        "<svg xmlns=\"http://www.w3.org/2000/svg\" viewBox=\"0 0 {width} {height}\" width=\"{width}\" \
         height=\"{height}\" font-series=\"sans-serif\" font-size=\"11\" role=\"img\">\n\
         <title>Time of the second program divided by time of the archive</title>\n\
         <rect width=\"{width}\" height=\"{height}\" fill=\"#ffffff\"/>\n\
         <text x=\"12\" y=\"20\" font-size=\"14\" fill=\"#222222\">Time of the second program divided by time of the \
         archive</text>\n\
         <text x=\"12\" y=\"38\" fill=\"#555555\">To the right of 1 the archive is faster. The scale is \
         logarithmic.</text>\n\
         <text x=\"12\" y=\"53\" fill=\"#555555\">A dot is the median of the passes, the thick bar their middle \
         half, the thin line all of them.</text>\n\
         <text x=\"12\" y=\"68\" fill=\"#555555\">The grey bar is the middle half of the control: the second \
         program against itself.</text>\n"
    )
}

/// A grey band behind every other series, so that its rows are seen together.
fn bands(svg: &mut String, rows: &[Row], width: f64) {
    let mut y = TOP;
    for (i, series) in rows.chunk_by(|a, b| a.series == b.series).enumerate() {
        let height = STEP * series.len() as f64;
        if i % 2 == 0 {
            put(
                svg,
                format!("<rect x=\"0\" y=\"{y}\" width=\"{width}\" height=\"{height}\" fill=\"#f3f4f6\"/>"),
            );
        }
        y += height;
    }
}

/// A line for each power of two, the one at 1 darker, with its number above and below.
fn axis(svg: &mut String, scale: &Scale, height: f64) {
    for power in scale.low..=scale.high {
        let ratio = 2f64.powi(power);
        let x = scale.x(ratio);
        let (colour, width) = if power == 0 { ("#333333", 1.5) } else { ("#dddddd", 1.0) };
        let bottom = height - BOTTOM;
        put(
            svg,
            format!(
                "<line x1=\"{x:.1}\" y1=\"{TOP}\" x2=\"{x:.1}\" y2=\"{bottom}\" stroke=\"{colour}\" \
                 stroke-width=\"{width}\"/>"
            ),
        );
        for y in [TOP - 6.0, bottom + 15.0] {
            put(
                svg,
                format!(
                    "<text x=\"{x:.1}\" y=\"{y}\" text-anchor=\"middle\" fill=\"#333333\">{ratio}</text>"
                ),
            );
        }
    }
}

/// The row's name, the control's middle half, and the ratio: all passes, their middle half, the median as a
/// dot and as a number.
fn dot(svg: &mut String, scale: &Scale, row: &Row, y: f64) {
    let (ratio, control) = (row.ratio(), row.control());
    let under = ratio.median < 1.0;
    let colour = if under { "#c2410c" } else { "#1d4ed8" };
    bar(svg, scale, (control.lower, control.upper), y, 11.0, "#9ca3af");
    bar(svg, scale, (ratio.least, ratio.greatest), y, 1.0, colour);
    bar(svg, scale, (ratio.lower, ratio.upper), y, 5.0, colour);
    let x = scale.x(ratio.median);
    put(svg, format!("<circle cx=\"{x:.1}\" cy=\"{y}\" r=\"4\" fill=\"{colour}\" stroke=\"#ffffff\"/>"));
    label(svg, LABELS, y, "end", "#222222", &row.name());
    let number = format!("{:.2}", ratio.median);
    if under {
        label(svg, scale.x(ratio.least) - 8.0, y, "end", colour, &number);
    } else {
        label(svg, scale.x(ratio.greatest) + 8.0, y, "start", colour, &number);
    }
}

/// A line along a row, at least as long as can be seen.
fn bar(svg: &mut String, scale: &Scale, (from, to): (f64, f64), y: f64, width: f64, colour: &str) {
    let (a, b) = (scale.x(from) - 0.5, scale.x(to) + 0.5);
    put(
        svg,
        format!(
            "<line x1=\"{a:.1}\" y1=\"{y}\" x2=\"{b:.1}\" y2=\"{y}\" stroke=\"{colour}\" stroke-width=\"{width}\"/>"
        ),
    );
}

fn label(svg: &mut String, x: f64, y: f64, anchor: &str, colour: &str, text: &str) {
    let base = y + 4.0;
    put(
        svg,
        format!("<text x=\"{x:.1}\" y=\"{base}\" text-anchor=\"{anchor}\" fill=\"{colour}\">{text}</text>"),
    );
}

fn put(svg: &mut String, line: String) {
    writeln!(svg, "{line}").expect("a string takes every line");
}
