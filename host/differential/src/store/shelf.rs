//! Where the records of a case come from, and books of them by chance.

use super::identifiers::Identifiers;
use super::known::{Known, MOST, place_of};
use super::record::Record;
use super::source::Source;
use super::strange::strange;
use crate::random::Random;

/// Where records come from: a few rigs, and identifiers.
pub struct Shelf {
    sources: Vec<Source>,
    identifiers: Identifiers,
    /// How many records of one rig stand together.
    run: usize,
    count: usize,
}

impl Shelf {
    /// One rig, or several that take turns; some differ in the order of their members
    /// or in reserved bytes alone.
    pub fn any(random: &mut Random) -> Shelf {
        let mut sources = vec![Source::any(random)];
        for _ in 0..random.pick(&[0, 0, 1, 1, 2, 3]) {
            let next = match random.once_in(2) {
                true => sources[0].turned(random),
                false => Source::any(random),
            };
            sources.push(next);
        }
        Shelf {
            sources,
            identifiers: Identifiers::any(random),
            run: random.pick(&[1, 1, 2, 3]),
            count: 0,
        }
    }

    fn source(&mut self) -> &Source {
        let number = self.count / self.run % self.sources.len();
        self.count += 1;
        &self.sources[number]
    }

    /// The next record, whose identifier no other has.
    pub fn next(&mut self, random: &mut Random) -> Record {
        let identifier = self.identifiers.next();
        self.source().record(random, identifier)
    }

    /// A record of this identifier.
    pub fn again(&mut self, random: &mut Random, identifier: u32) -> Record {
        self.source().record(random, identifier)
    }

    /// A record with a fault.
    pub fn strange(&mut self, random: &mut Random) -> Record {
        let identifier = self.identifiers.next();
        strange(random, self.source(), identifier)
    }

    /// A book by chance: none, some or all of its entries in use, and behind the last
    /// body nothing, about as much as another record takes, or plenty.
    pub fn book(&mut self, random: &mut Random) -> Known {
        let capacity: usize = random.pick(&[0, 1, 1, 2, 2, 3, 4, 6, 10, 40]);
        let used = match random.below(3) {
            0 => capacity,
            1 => capacity.saturating_sub(1),
            _ => random.between(0, capacity),
        };
        let mut records: Vec<Record> = (0..used).map(|_| self.next(random)).collect();
        let mut left = MOST - place_of(capacity);
        records.retain(|record| {
            let fits = record.length() <= left;
            left -= if fits { record.length() } else { 0 };
            fits
        });
        let next = self.sources[0].record(random, 0).length();
        let free = match random.below(6) {
            0 => 0,
            1 => next - random.pick(&[1, 1, 2]),
            2 => next,
            3 => next + random.pick(&[1, 1, 2]),
            4 => random.pick(&[1, 2, 60]),
            _ => random.pick(&[300, 300, 1000, 5000]),
        };
        Known::of(capacity, &records, &random.bytes(free.min(left)))
    }
}
