//! The rows about parts and values by path.

use crate::asked::Asked;
use crate::case::Case;
use crate::inputs::elements;
use crate::inputs::records::{Extent, Order, Record, array_of, rig};
use crate::questions::{read_value, view};

type Ask = fn(&[u8], &[u8], &[Vec<u32>]) -> Asked;

pub fn rows() -> Vec<Case> {
    let mut cases = value_rows();
    cases.extend(view_rows());
    cases
}

/// The steps of 80 values, evenly over an array of this length.
fn steps(length: u32) -> Vec<Vec<u32>> {
    (0..80).map(|index| vec![index * (length / 80)]).collect()
}

/// The steps of all values of an array of this length.
fn every(length: u32) -> Vec<Vec<u32>> {
    (0..length).map(|index| vec![index]).collect()
}

fn value_rows() -> Vec<Case> {
    let entry = "read_value";
    let few = array_of(&elements::doubles(), Extent::Count(80));
    let many = array_of(&elements::doubles(), Extent::Count(8000));
    let clusters = array_of(&elements::clusters(), Extent::Count(2000));
    let values = |what: &str, record: &Record, paths: &[Vec<u32>]| {
        let asked = read_value(&record.descriptor, &record.data, paths);
        Case::new(entry, what, record.data.len(), asked)
    };
    let mut cases = vec![
        values("80 values out of 80 doubles", &few, &steps(80)),
        values("80 values out of 8,000 doubles", &many, &steps(8000)),
        values("all of 8,000 doubles", &many, &every(8000)),
        values("the last of 14 members", &rig(), &[vec![13]]),
        values("in the last of 2,000 clusters", &clusters, &[vec![1999, 1]]),
        values("14 members, refused: no number", &rig(), &[vec![1]]),
    ];
    cases.extend(refusals(entry, read_value));
    cases
}

fn view_rows() -> Vec<Case> {
    let entry = "view";
    let few = array_of(&elements::doubles(), Extent::Count(80));
    let many = array_of(&elements::doubles(), Extent::Count(8000));
    let clusters = array_of(&elements::clusters(), Extent::Count(2000));
    let nested = array_of(&elements::nested(), Extent::Count(1500));
    let views = |what: &str, record: &Record, paths: &[Vec<u32>]| {
        let asked = view(&record.descriptor, &record.data, paths);
        Case::new(entry, what, record.data.len(), asked)
    };
    let mut cases = vec![
        views("80 parts of 80 doubles", &few, &steps(80)),
        views("80 parts of 8,000 doubles", &many, &steps(8000)),
        views("the whole of 8,000 doubles", &many, &[vec![]]),
        views("the second of 14 members", &rig(), &[vec![1]]),
        views("the last of 14 members", &rig(), &[vec![13]]),
        views("the first of 2,000 clusters", &clusters, &[vec![0]]),
        views("the last of 2,000 clusters", &clusters, &[vec![1999]]),
        views("deep in the last of 1,500", &nested, &[vec![1499, 1, 0, 1]]),
    ];
    cases.extend(refusals(entry, view));
    cases
}

/// The same record with its data or the path refused.
fn refusals(entry: &'static str, ask: Ask) -> Vec<Case> {
    let mut cases = Vec::new();
    let clusters = array_of(&elements::clusters(), Extent::Count(2000));
    for (what, record, last, over) in [
        ("14 members", rig(), vec![13], vec![14]),
        ("2,000 clusters", clusters, vec![1999, 1], vec![1999, 3]),
    ] {
        let (descriptor, data) = (&record.descriptor, &record.data);
        let early = record.early.put_into(data, Order::Big);
        let late = record.late.put_into(data, Order::Big);
        let named = |case: &str| format!("{what}, {case}");
        let asked = ask(descriptor, &early, std::slice::from_ref(&last));
        cases.push(Case::early(entry, named("data refused early"), asked));
        let asked = ask(descriptor, &late, std::slice::from_ref(&last));
        let name = named("data refused late");
        cases.push(Case::new(entry, name, data.len(), asked));
        let asked = ask(descriptor, data, &[over]);
        let name = named("last step refused");
        cases.push(Case::new(entry, name, data.len(), asked));
    }
    cases
}
