//! The rows about the check of data.

use crate::case::Case;
use crate::inputs::elements;
use crate::inputs::records::{Extent, Order, Record, array_of, members, rig};
use crate::inputs::variants::{refused_early, refused_late};
use crate::questions::check_data;

const ENTRY: &str = "check_data";

/// The data that is checked.
fn checked() -> Vec<Record> {
    let arrays = [
        (elements::doubles(), 80),
        (elements::doubles(), 8000),
        (elements::complex(), 4000),
        (elements::pairs(), 4000),
        (elements::mixed(), 4000),
        (elements::stamps(), 4000),
        (elements::flags(), 60000),
        (elements::enumerations(), 30000),
        (elements::judged(), 5000),
        (elements::texts(), 4000),
        (elements::clusters(), 2000),
        (elements::two_texts(), 1500),
        (elements::arrays(), 3000),
        (elements::nested(), 1500),
    ];
    let arrays = arrays.map(|(element, count)| array_of(&element, Extent::Count(count)));
    [rig(), members(256)].into_iter().chain(arrays).collect()
}

pub fn rows() -> Vec<Case> {
    let mut cases: Vec<Case> = checked().iter().flat_map(with_refusals).collect();
    let rig = rig();
    let asked = check_data(&refused_early(&rig.descriptor), &rig.data);
    let what = format!("{}, descriptor refused early", rig.what);
    cases.push(Case::early(ENTRY, what, asked));
    let asked = check_data(&refused_late(&rig.descriptor), &rig.data);
    let what = format!("{}, descriptor refused late", rig.what);
    cases.push(Case::new(ENTRY, what, rig.descriptor.len(), asked));
    let asked = check_data(&rig.descriptor, &[&rig.data[..], &[0]].concat());
    let what = format!("{}, refused: a byte left over", rig.what);
    cases.push(Case::new(ENTRY, what, rig.data.len(), asked));
    cases
}

/// Data as it is, refused early and refused late.
fn with_refusals(record: &Record) -> [Case; 3] {
    let ask = |data: &[u8]| check_data(&record.descriptor, data);
    let early = record.early.put_into(&record.data, Order::Big);
    let late = record.late.put_into(&record.data, Order::Big);
    let (what, bytes) = (&record.what, record.data.len());
    [
        Case::new(ENTRY, what, bytes, ask(&record.data)),
        Case::early(ENTRY, format!("{what}, refused early"), ask(&early)),
        Case::new(ENTRY, format!("{what}, refused late"), bytes, ask(&late)),
    ]
}
