//! Counts what the differences of stamps met.

use std::cmp::Ordering;

use reference::Answer;

use super::Tally;
use super::table::{Cell, Table};
use crate::entry::Entry;
use crate::interval::time::Pair;
use crate::kind::Kind;

/// How the first stamp stands to the second.
const STANDINGS: [&str; 10] = [
    "the first a second later or more",
    "and a second borrowed",
    "in the same second",
    "and a second borrowed",
    "a second earlier or more",
    "and a second borrowed",
    "the longest time",
    "the longest time before",
    "a second longer",
    "a second longer before",
];

/// No differences yet.
pub fn standings() -> Table {
    let columns = ["given", "with 32"].map(String::from);
    let rows = STANDINGS.map(String::from);
    Table::new(
        "stamps",
        rows.to_vec(),
        columns.to_vec(),
        |row, column| match (row, column) {
            (2 | 3 | 6 | 7, 1) | (8 | 9, 0) => Cell::Never,
            _ => Cell::Must,
        },
    )
}

impl Tally {
    /// Counts a difference.
    pub fn subtracted(&mut self, kind: Kind, pair: &Pair, answer: Answer) {
        self.case(kind, answer);
        self.answered(Entry::StampDifference, answer);
        let column = usize::from(answer.number != 0);
        let standing = match pair.first.seconds.cmp(&pair.second.seconds) {
            Ordering::Greater => 0,
            Ordering::Equal => 2,
            Ordering::Less => 4,
        };
        let standing = standing + usize::from(pair.borrows());
        self.stamps.count(standing, column);
        let [most, least] = [i64::MAX, i64::MIN].map(i128::from);
        let ends = [most, least, most + 1, least - 1];
        if let Some(end) = ends.iter().position(|end| *end == pair.seconds()) {
            self.stamps.count(6 + end, column);
        }
    }
}
