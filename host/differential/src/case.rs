//! The cases of a seed by their numbers: first the limits of descriptors, of
//! records, of data, of time stamps and of blank books, then what chance brings.

use crate::difference::Held;
use crate::random::Random;
use crate::tally::Tally;
use crate::{data, descriptor, interval, record, store};

/// A case about descriptors, data, a record in a reader's shape, time stamps or a blank
/// book.
pub enum Case {
    Descriptor(descriptor::case::Case),
    Data(data::case::Case),
    Record(record::case::Case),
    Interval(interval::case::Case),
    Store(store::case::Case),
}

/// The cases that every seed starts with.
pub struct Limits {
    descriptors: Vec<descriptor::limits::Limit>,
    data: Vec<data::limits::Limit>,
    records: Vec<record::limits::Limit>,
    intervals: Vec<interval::limits::Limit>,
    books: Vec<store::limits::Limit>,
}

impl Limits {
    pub fn all() -> Limits {
        Limits {
            descriptors: descriptor::limits::all(),
            data: data::limits::all(),
            records: record::limits::all(),
            intervals: interval::limits::all(),
            books: store::limits::all(),
        }
    }
}

impl Case {
    /// The case of this number.
    pub fn make(random: &mut Random, number: u64, limits: &Limits) -> Case {
        let number = number as usize;
        if let Some(limit) = limits.descriptors.get(number) {
            return Case::Descriptor(descriptor::case::Case::of_limit(limit, random));
        }
        let number = number - limits.descriptors.len();
        if let Some(limit) = limits.records.get(number) {
            return Case::Record(record::case::Case::of_limit(limit));
        }
        let number = number - limits.records.len();
        if let Some(limit) = limits.data.get(number) {
            return Case::Data(data::case::Case::of_limit(limit, random));
        }
        let number = number - limits.data.len();
        if let Some(limit) = limits.intervals.get(number) {
            return Case::Interval(interval::case::Case::of_limit(limit));
        }
        let number = number - limits.intervals.len();
        if let Some(limit) = limits.books.get(number) {
            return Case::Store(store::case::Case::of_limit(limit));
        }
        match random.below(53) {
            0..20 => Case::Descriptor(descriptor::case::Case::any(random)),
            20..40 => Case::Data(data::case::Case::any(random)),
            40..50 => Case::Record(record::case::Case::any(random)),
            50 => Case::Interval(interval::case::Case::any(random)),
            _ => Case::Store(store::case::Case::any(random)),
        }
    }

    pub fn what(&self) -> &str {
        match self {
            Case::Descriptor(case) => &case.what,
            Case::Data(case) => &case.what,
            Case::Record(case) => &case.what,
            Case::Interval(case) => &case.what,
            Case::Store(case) => &case.what,
        }
    }

    /// Holds the two against each other over it. Returns the first difference.
    pub fn hold(&self, random: &mut Random, exact: bool, tally: &mut Tally) -> Held<()> {
        match self {
            Case::Descriptor(case) => descriptor::hold::hold(case, random, exact, tally),
            Case::Data(case) => data::hold::hold(case, random, exact, tally),
            Case::Record(case) => record::hold::hold(case, random, exact, tally),
            Case::Interval(case) => interval::hold::hold(case, tally),
            Case::Store(case) => store::hold::hold(case, random, exact, tally),
        }
    }
}
