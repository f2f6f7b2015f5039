//! The rows about the two byte orders.

use crate::asked::Asked;
use crate::case::Case;
use crate::inputs::elements;
use crate::inputs::records::{Extent, Order, Record, array_of, rig};
use crate::questions::{ROOM, from_little_endian, to_little_endian};

pub fn rows() -> Vec<Case> {
    let there = Direction {
        entry: "to_little_endian",
        order: Order::Big,
        ask: to_little_endian,
    };
    let back = Direction {
        entry: "from_little_endian",
        order: Order::Little,
        ask: from_little_endian,
    };
    [there.rows(), back.rows()].into_iter().flatten().collect()
}

/// One of the two ways.
struct Direction {
    entry: &'static str,
    /// That of the data that is lent.
    order: Order,
    ask: fn(&[u8], &[u8], usize) -> Asked,
}

impl Direction {
    fn rows(&self) -> Vec<Case> {
        let many = |element, count| array_of(&element, Extent::Count(count));
        let mut cases = Vec::new();
        for record in [
            rig(),
            many(elements::doubles(), 8000),
            many(elements::clusters(), 2000),
        ] {
            cases.extend(self.with_refusals(&record));
        }
        for record in [
            many(elements::halves(), 32000),
            many(elements::bytes(), 60000),
            many(elements::flags(), 60000),
            many(elements::complex(), 4000),
            many(elements::pairs(), 4000),
            many(elements::mixed(), 4000),
            many(elements::stamps(), 4000),
            many(elements::enumerations(), 30000),
            many(elements::texts(), 4000),
            many(elements::two_texts(), 1500),
            many(elements::arrays(), 3000),
            many(elements::nested(), 1500),
        ] {
            cases.push(self.accepted(&record));
        }
        cases
    }

    fn accepted(&self, record: &Record) -> Case {
        let data = lent_in(self.order, record);
        let asked = (self.ask)(&record.descriptor, &data, ROOM);
        Case::new(self.entry, &record.what, data.len(), asked)
    }

    /// Data as it is, refused early, refused late and without room.
    fn with_refusals(&self, record: &Record) -> [Case; 4] {
        let data = lent_in(self.order, record);
        let ask = |data: &[u8], room| (self.ask)(&record.descriptor, data, room);
        let early = record.early.put_into(&data, self.order);
        let late = record.late.put_into(&data, self.order);
        let named = |case: &str| format!("{}, {case}", record.what);
        let (entry, bytes) = (self.entry, data.len());
        [
            self.accepted(record),
            Case::early(entry, named("refused early"), ask(&early, ROOM)),
            Case::new(entry, named("refused late"), bytes, ask(&late, ROOM)),
            Case::new(
                entry,
                named("refused: no room"),
                bytes,
                ask(&data, bytes - 1),
            ),
        ]
    }
}

/// The record's data in this order.
pub fn lent_in(order: Order, record: &Record) -> Vec<u8> {
    let mut form = record.data.clone();
    if let Order::Little = order {
        reference::to_little_endian(&record.descriptor, &record.data, &mut form);
    }
    form
}
