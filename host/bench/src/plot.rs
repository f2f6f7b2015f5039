//! The result as a picture: how cost grows, and the ratio of every row.

mod curves;
mod ratios;
mod scale;
mod svg;

use crate::about::Curve;
use crate::case::Case;
use crate::timing::Times;
use svg::Svg;

const WIDTH: f64 = 1240.0;
const MARGIN: f64 = 30.0;

/// The two sides and the copy.
const KERBCANOPY: &str = "#1f5fa8";
const REFERENCE: &str = "#c2571a";
const COPY: &str = "#6b6b6b";

/// Draws both parts, one below the other. The growth has the times of all points
/// in order.
pub fn draw(rows: &[Case], times: &[Times], curves: &[Curve], growth: &[Times]) -> String {
    let mut svg = Svg::default();
    svg.text(
        MARGIN,
        40.0,
        "title",
        "Kerbcanopy and the second implementation",
    );
    let below = curves::draw(&mut svg, curves, growth, 60.0);
    let below = ratios::draw(&mut svg, rows, times, below + 30.0);
    svg.finish(WIDTH, below + MARGIN)
}
