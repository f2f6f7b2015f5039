//! Data cut at every byte: 21 at the start of the piece that is cut.

use super::{Limits, always, array, cluster, enumeration, plain, quantity, stamp, text};
use crate::tree::Tree;

pub fn add(limits: &mut Limits) {
    let pair = cluster(vec![plain(0x0A), plain(0x0A)]);
    let numbers = cluster(vec![
        plain(0x02),
        plain(0x0A),
        plain(0x0C),
        plain(0x05),
        plain(0x0B),
    ]);
    let judged = cluster(vec![
        plain(0x21),
        enumeration(0x16, 4),
        quantity(0x1D),
        enumeration(0x15, 4),
    ]);
    let inner = cluster(vec![
        plain(0x03),
        cluster(vec![plain(0x01), quantity(0x19)]),
    ]);
    let texts = cluster(vec![text(), array(1, cluster(vec![text(), plain(0x06)]))]);
    let rows = cluster(vec![plain(0x06), array(2, pair.clone()), plain(0x21)]);
    for (what, element) in [
        ("pairs", pair),
        ("numbers", numbers),
        ("judged numbers", judged),
        ("clusters in clusters", inner),
        ("strings in arrays", texts),
        ("arrays of pairs", rows),
        ("time stamps", stamp()),
        (
            "time stamps beside",
            cluster(vec![plain(0x06), stamp(), text()]),
        ),
    ] {
        everywhere(limits, what, &array(1, element.clone()));
        everywhere(limits, what, &array(3, element));
    }
}

fn everywhere(limits: &mut Limits, what: &str, tree: &Tree) {
    let filled = always(tree, 90, 260);
    for piece in &filled.pieces {
        for length in piece.start..piece.start + piece.length {
            let cut = filled.data.cut(length);
            let what = format!("{what}, {length} bytes");
            limits.refused(what, tree, cut, 21, piece.start);
        }
    }
}
