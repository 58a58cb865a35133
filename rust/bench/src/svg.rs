//! Curves on two logarithmic axes, as SVG.

use std::fmt::Write;

/// A chart: what is on its axes, and its curves.
pub struct Chart<'a> {
    pub title: &'a str,
    pub across: &'a str,
    /// What each position across is called.
    pub marks: Vec<String>,
    pub curves: Vec<Curve<'a>>,
}

/// Microseconds at each position.
pub struct Curve<'a> {
    pub name: &'a str,
    pub colour: &'a str,
    pub values: Vec<f64>,
}

const WIDTH: f64 = 470.0;
const HEIGHT: f64 = 380.0;
const LEFT: f64 = 62.0;
const RIGHT: f64 = 20.0;
const TOP: f64 = 40.0;
const BOTTOM: f64 = 118.0;

/// The charts side by side.
pub fn draw(charts: &[Chart]) -> String {
    let mut text = String::new();
    let width = WIDTH * charts.len() as f64;
    let _ = writeln!(
        text,
        "<svg xmlns=\"http://www.w3.org/2000/svg\" viewBox=\"0 0 {width} {HEIGHT}\" \
         font-family=\"sans-serif\" font-size=\"12\">\n\
         <rect width=\"{width}\" height=\"{HEIGHT}\" fill=\"white\"/>"
    );
    for (number, chart) in charts.iter().enumerate() {
        let shift = WIDTH * number as f64;
        let _ = writeln!(text, "<g transform=\"translate({shift} 0)\">");
        chart.draw(&mut text);
        text.push_str("</g>\n");
    }
    text.push_str("</svg>\n");
    text
}

impl Chart<'_> {
    fn draw(&self, text: &mut String) {
        let values = || self.curves.iter().flat_map(|curve| &curve.values);
        let lowest = values().fold(f64::INFINITY, |a, b| a.min(*b));
        let highest = values().fold(0.0, |a: f64, b| a.max(*b));
        let (low, high) = (lowest.log10().floor(), highest.log10().ceil());
        let right = WIDTH - RIGHT;
        let bottom = HEIGHT - BOTTOM;
        let across = |position: usize| {
            LEFT + (right - LEFT) * position as f64 / (self.marks.len() - 1) as f64
        };
        let up = |value: f64| bottom - (bottom - TOP) * (value.log10() - low) / (high - low);

        let _ = writeln!(
            text,
            "<text x=\"{LEFT}\" y=\"22\" font-size=\"14\">{}</text>",
            self.title
        );
        for power in low as i32..=high as i32 {
            let value = 10f64.powi(power);
            let y = up(value);
            let _ = writeln!(
                text,
                "<line x1=\"{LEFT}\" y1=\"{y:.1}\" x2=\"{right}\" y2=\"{y:.1}\" stroke=\"#ddd\"/>\n\
                 <text x=\"{:.1}\" y=\"{:.1}\" text-anchor=\"end\">{value} µs</text>",
                LEFT - 6.0,
                y + 4.0
            );
        }
        for (position, mark) in self.marks.iter().enumerate() {
            let x = across(position);
            let _ = writeln!(
                text,
                "<text x=\"{x:.1}\" y=\"{:.1}\" text-anchor=\"middle\">{mark}</text>",
                bottom + 18.0
            );
        }
        let _ = writeln!(
            text,
            "<text x=\"{:.1}\" y=\"{:.1}\" text-anchor=\"middle\" fill=\"#555\">{}</text>",
            (LEFT + right) / 2.0,
            bottom + 36.0,
            self.across
        );
        for (number, curve) in self.curves.iter().enumerate() {
            let points: Vec<String> = curve
                .values
                .iter()
                .enumerate()
                .map(|(position, value)| format!("{:.1},{:.1}", across(position), up(*value)))
                .collect();
            let y = bottom + 56.0 + 17.0 * number as f64;
            let colour = curve.colour;
            let _ = writeln!(
                text,
                "<polyline points=\"{}\" fill=\"none\" stroke=\"{colour}\" stroke-width=\"2\"/>\n\
                 <line x1=\"{LEFT}\" y1=\"{y:.1}\" x2=\"{:.1}\" y2=\"{y:.1}\" \
                 stroke=\"{colour}\" stroke-width=\"2\"/>\n\
                 <text x=\"{:.1}\" y=\"{:.1}\">{}</text>",
                points.join(" "),
                LEFT + 22.0,
                LEFT + 28.0,
                y + 4.0,
                curve.name
            );
        }
    }
}
