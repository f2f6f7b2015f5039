//! The rows about descriptors.

use crate::asked::Asked;
use crate::case::Case;
use crate::inputs::descriptors;
use crate::inputs::variants::{
    early_difference, late_difference, refused_early, refused_late, with_reserved,
};
use crate::questions::{self, ROOM};

pub fn rows() -> Vec<Case> {
    let all = descriptors::all();
    let mut cases = Vec::new();
    for (what, bytes) in &all {
        let check = questions::check_descriptor;
        cases.extend(with_refusals("check_descriptor", what, bytes, check));
    }
    let [_, rig, widest, ..] = &all;
    cases.extend(comparisons(rig.0, &rig.1, &widest.1));
    cases.extend(comparisons(widest.0, &widest.1, &rig.1));
    for (what, bytes) in &all[..3] {
        let normal = |bytes: &[u8]| questions::normal_form(bytes, ROOM);
        cases.extend(with_refusals("normal_form", what, bytes, normal));
        let small = questions::normal_form(bytes, bytes.len() - 1);
        let what = format!("{what}, refused: no room");
        cases.push(Case::new("normal_form", what, bytes.len(), small));
    }
    cases
}

/// A question about a descriptor as it is, refused early and refused late.
fn with_refusals(
    entry: &'static str,
    what: &str,
    bytes: &[u8],
    ask: impl Fn(&[u8]) -> Asked,
) -> [Case; 3] {
    let (early, late) = (refused_early(bytes), refused_late(bytes));
    [
        Case::new(entry, what, bytes.len(), ask(bytes)),
        Case::early(entry, format!("{what}, refused early"), ask(&early)),
        Case::new(
            entry,
            format!("{what}, refused late"),
            bytes.len(),
            ask(&late),
        ),
    ]
}

/// A descriptor compared with copies of itself and with another one.
fn comparisons(what: &str, bytes: &[u8], other: &[u8]) -> Vec<Case> {
    let (early, late) = (refused_early(bytes), late_difference(bytes));
    let seconds = [
        ("the same bytes", bytes.to_vec()),
        ("reserved bytes differ", with_reserved(bytes, 0x40)),
        ("early difference", early_difference(bytes)),
        (
            "early difference, reserved too",
            with_reserved(&early_difference(bytes), 0x40),
        ),
        ("late difference, reserved too", with_reserved(&late, 0x40)),
        ("late difference", late),
        ("another descriptor", other.to_vec()),
        ("second refused late", refused_late(bytes)),
        ("second refused early", early.clone()),
    ];
    let seconds = seconds.into_iter().map(|(case, second)| {
        let asked = questions::compare(bytes, &second);
        Case::new("compare", format!("{what}, {case}"), bytes.len(), asked)
    });
    let mut cases: Vec<Case> = seconds.collect();
    let asked = questions::compare(&early, bytes);
    let case = format!("{what}, first refused early");
    cases.push(Case::early("compare", case, asked));
    let asked = questions::compare(&refused_late(bytes), bytes);
    let case = format!("{what}, first refused late");
    cases.push(Case::new("compare", case, bytes.len(), asked));
    cases
}
