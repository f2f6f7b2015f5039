//! The ratio of every row as a dot, by entry, the line at 1 in their middle.

use super::scale::{Scale, around};
use super::svg::Svg;
use super::{KERBCANOPY, MARGIN, REFERENCE, WIDTH};
use crate::case::Case;
use crate::timing::Times;

const LINE: f64 = 14.0;
const COLUMN: f64 = (WIDTH - 2.0 * MARGIN) / 2.0;
/// Where the dots begin and end in a column.
const DOTS: (f64, f64) = (300.0, 520.0);

/// The rows of one entry.
type Group<'a> = Vec<(&'a Case, &'a Times)>;

/// Draws all rows from this height on. Returns how far down they reach.
pub fn draw(svg: &mut Svg, rows: &[Case], times: &[Times], top: f64) -> f64 {
    svg.text(
        MARGIN,
        top,
        "part",
        "Time of Kerbcanopy to that of the second implementation",
    );
    svg.text(
        MARGIN,
        top + 18.0,
        "small",
        "a dot for each row, logarithmic; left of 1 Kerbcanopy is faster",
    );
    let range = around(times.iter().map(|times| times.ratio), 2.0);
    let columns = in_columns(grouped(rows, times));
    let mut bottom = top;
    for (index, groups) in columns.iter().enumerate() {
        let left = MARGIN + index as f64 * COLUMN;
        let scale = Scale::new(range, left + DOTS.0, left + DOTS.1);
        bottom = draw_column(svg, groups, scale, (left, top + 44.0)).max(bottom);
    }
    bottom
}

fn grouped<'a>(rows: &'a [Case], times: &'a [Times]) -> Vec<Group<'a>> {
    let rows: Group = rows.iter().zip(times).collect();
    let groups = rows.chunk_by(|first, second| first.0.entry == second.0.entry);
    groups.map(<[_]>::to_vec).collect()
}

/// Two columns of about the same height.
fn in_columns(groups: Vec<Group>) -> [Vec<Group>; 2] {
    let lines = |group: &Group| group.len() + 2;
    let half = groups.iter().map(lines).sum::<usize>() / 2;
    let mut columns = [Vec::new(), Vec::new()];
    let mut before = 0;
    for group in groups {
        let height = lines(&group);
        let column = usize::from(before + height / 2 > half);
        columns[column].push(group);
        before += height;
    }
    columns
}

fn draw_column(svg: &mut Svg, groups: &[Group], scale: Scale, from: (f64, f64)) -> f64 {
    let (left, top) = from;
    let lines: usize = groups.iter().map(|group| group.len() + 2).sum();
    let bottom = top + lines as f64 * LINE;
    for power in scale.powers(2.0) {
        let x = scale.place(power);
        let (colour, width) = if power == 1.0 {
            ("#333", 1.4)
        } else {
            ("#ddd", 1.0)
        };
        svg.line((x, top), (x, bottom), colour, width);
        svg.text_around(x, top - 6.0, "small", &power.to_string());
    }
    let mut y = top + LINE;
    for group in groups {
        svg.text(left, y, "head", group[0].0.entry);
        y += LINE;
        for (case, times) in group {
            draw_row(svg, case, times.ratio, scale, (left, y));
            y += LINE;
        }
        y += LINE;
    }
    bottom
}

fn draw_row(svg: &mut Svg, case: &Case, ratio: f64, scale: Scale, from: (f64, f64)) {
    let (left, y) = from;
    let colour = if ratio > 1.0 { REFERENCE } else { KERBCANOPY };
    svg.text_before(left + DOTS.0 - 8.0, y, "row", &case.what);
    svg.line(
        (scale.place(1.0), y - 4.0),
        (scale.place(ratio), y - 4.0),
        colour,
        1.0,
    );
    svg.dot(scale.place(ratio), y - 4.0, 3.4, colour);
    svg.text_before(left + DOTS.1 + 36.0, y, "row", &format!("{ratio:.2}"));
}
