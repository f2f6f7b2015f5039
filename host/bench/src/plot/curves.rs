//! How cost grows: a panel for each curve, both axes logarithmic.

use super::scale::{Scale, around};
use super::svg::Svg;
use super::{COPY, KERBCANOPY, MARGIN, REFERENCE};
use crate::about::{Along, Curve};
use crate::numerals::thousands;
use crate::timing::Times;

const COLUMNS: usize = 4;
/// A panel with what is written around it.
const CELL: (f64, f64) = (296.0, 212.0);
/// The panel itself, in its cell.
const LEFT: f64 = 46.0;
const TOP: f64 = 26.0;
const SIZE: (f64, f64) = (230.0, 140.0);

/// Draws all curves from this height on, those that grow alike together. Returns
/// how far down they reach.
pub fn draw(svg: &mut Svg, curves: &[Curve], times: &[Times], top: f64) -> f64 {
    if curves.is_empty() {
        return top;
    }
    svg.text(MARGIN, top + 10.0, "part", "How cost grows (nanoseconds)");
    draw_legend(svg, top + 10.0);
    let range = around(times.iter().flat_map(all), 10.0);
    let mut times = times.iter();
    let mut y = top + 30.0;
    for alike in curves.chunk_by(|first, second| first.along == second.along) {
        for row in alike.chunks(COLUMNS) {
            for (column, curve) in row.iter().enumerate() {
                let x = MARGIN + LEFT + column as f64 * CELL.0;
                let points: Vec<&Times> = times.by_ref().take(curve.points.len()).collect();
                Panel::new(curve, range, x, y + TOP).draw(svg, &points);
            }
            y += CELL.1;
        }
    }
    y
}

/// What is drawn of a point.
fn all(times: &Times) -> impl Iterator<Item = f64> {
    let sides = [times.kerbcanopy, times.reference];
    sides.into_iter().chain(times.copy)
}

fn draw_legend(svg: &mut Svg, y: f64) {
    let sides = [
        (KERBCANOPY, "Kerbcanopy", "none"),
        (REFERENCE, "second implementation", "none"),
        (COPY, "a copy of the same bytes", "4 3"),
    ];
    let mut x = MARGIN + 300.0;
    for (colour, name, dashes) in sides {
        svg.path(&[(x, y - 4.0), (x + 26.0, y - 4.0)], colour, dashes);
        svg.text(x + 32.0, y, "head", name);
        x += 200.0;
    }
}

struct Panel<'a> {
    curve: &'a Curve,
    across: Scale,
    up: Scale,
    left: f64,
    top: f64,
}

impl<'a> Panel<'a> {
    fn new(curve: &'a Curve, range: (f64, f64), left: f64, top: f64) -> Panel<'a> {
        let places = || curve.points.iter().filter_map(|point| point.along);
        let ends = (
            places().min().unwrap_or(1) as f64,
            places().max().unwrap_or(2) as f64,
        );
        Panel {
            curve,
            across: Scale::new(ends, left + 10.0, left + SIZE.0 - 10.0),
            up: Scale::new(range, top + SIZE.1, top),
            left,
            top,
        }
    }

    fn draw(&self, svg: &mut Svg, times: &[&Times]) {
        let first = &self.curve.points[0];
        svg.text(self.left, self.top - 8.0, "head", first.entry);
        svg.text_before(self.left + SIZE.0, self.top - 8.0, "small", &first.what);
        self.draw_axes(svg);
        let copies: Option<Vec<f64>> = times.iter().map(|times| times.copy).collect();
        if let Some(copies) = copies {
            svg.path(&self.places(&copies), COPY, "4 3");
        }
        let reference: Vec<f64> = times.iter().map(|times| times.reference).collect();
        let kerbcanopy: Vec<f64> = times.iter().map(|times| times.kerbcanopy).collect();
        for (colour, numbers) in [(REFERENCE, reference), (KERBCANOPY, kerbcanopy)] {
            let places = self.places(&numbers);
            svg.path(&places, colour, "none");
            for (x, y) in places {
                svg.dot(x, y, 2.6, colour);
            }
        }
    }

    /// Where these times of the points are drawn.
    fn places(&self, times: &[f64]) -> Vec<(f64, f64)> {
        let across = self.curve.points.iter().filter_map(|point| point.along);
        (across.zip(times))
            .map(|(along, time)| (self.across.place(along as f64), self.up.place(*time)))
            .collect()
    }

    fn draw_axes(&self, svg: &mut Svg) {
        let (right, bottom) = (self.left + SIZE.0, self.top + SIZE.1);
        for power in self.up.powers(10.0) {
            let y = self.up.place(power);
            svg.line((self.left, y), (right, y), "#ddd", 1.0);
            svg.text_before(
                self.left - 5.0,
                y + 4.0,
                "small",
                &thousands(power.round() as usize),
            );
        }
        for point in &self.curve.points {
            let along = point.along.unwrap_or(1);
            let x = self.across.place(along as f64);
            svg.line((x, bottom), (x, bottom + 4.0), "#555", 1.0);
            let name = match self.curve.along {
                Along::Rows => format!("{along}"),
                Along::Bytes => format!("{} KB", along / 1024),
            };
            svg.text_around(x, bottom + 16.0, "small", &name);
        }
        let name = match self.curve.along {
            Along::Rows => "rows of the descriptor",
            Along::Bytes => "data, or the book",
        };
        svg.text_around((self.left + right) / 2.0, bottom + 28.0, "small", name);
        svg.line((self.left, bottom), (right, bottom), "#555", 1.0);
    }
}
