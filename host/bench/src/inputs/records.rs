//! The data that is timed, and the same refused early or late.

use crate::inputs::descriptors::{array, cluster, number, states, text};
use crate::inputs::elements::{Element, characters, double};
use crate::numerals::thousands;

/// Data under a descriptor, and how it can be refused.
pub struct Record {
    pub what: String,
    pub descriptor: Vec<u8>,
    pub data: Vec<u8>,
    pub early: Fault,
    pub late: Fault,
}

/// A change that makes data refused.
#[derive(Clone, Copy)]
pub enum Fault {
    /// The last byte is missing: 21.
    Cut,
    /// The highest byte of the word of this place and width is 255: 22 or 23.
    High(usize, usize),
}

/// Which byte of a word is the highest.
#[derive(Clone, Copy)]
pub enum Order {
    Big,
    Little,
}

impl Fault {
    /// A copy of the data, in this order, with the fault in it.
    pub fn put_into(self, data: &[u8], order: Order) -> Vec<u8> {
        let mut refused = data.to_vec();
        match (self, order) {
            (Fault::Cut, _) => refused.truncate(data.len() - 1),
            (Fault::High(place, _), Order::Big) => refused[place] = 255,
            (Fault::High(place, width), Order::Little) => refused[place + width - 1] = 255,
        }
        refused
    }
}

/// How long an array is.
#[derive(Clone, Copy)]
pub enum Extent {
    Count(usize),
    /// As many elements as fit into so many bytes with the size word.
    Bytes(usize),
}

impl Extent {
    fn has_room(self, count: usize, length: usize) -> bool {
        match self {
            Extent::Count(most) => count < most,
            Extent::Bytes(most) => length <= most,
        }
    }
}

/// An array of these elements.
pub fn array_of(element: &Element, extent: Extent) -> Record {
    let (count, data) = elements(element.data, extent);
    let late = match element.last {
        Some(width) => Fault::High(data.len() - width, width),
        None => Fault::Cut,
    };
    Record {
        what: format!("{} {}", thousands(count), element.what),
        descriptor: array("", element.descriptor.clone()),
        data,
        early: Fault::High(element.first.0, element.first.1),
        late,
    }
}

/// An array's size, then each element.
fn elements(element: impl Fn(usize) -> Vec<u8>, extent: Extent) -> (usize, Vec<u8>) {
    let mut data = vec![0; 4];
    let mut count = 0;
    loop {
        let next = element(count);
        if !extent.has_room(count, data.len() + next.len()) {
            data[..4].copy_from_slice(&(count as u32).to_be_bytes());
            return (count, data);
        }
        data.extend(next);
        count += 1;
    }
}

/// A record of 14 members as a bath rig sends it.
pub fn rig() -> Record {
    let (descriptor, data) = joined("blank", &rig_members(pulses()));
    Record {
        what: "a record of 14 members".into(),
        descriptor,
        data,
        early: Fault::High(4, 4),
        late: Fault::Cut,
    }
}

/// A record with so many rows: Booleans, doubles and strings by turns. Early, the
/// first string is refused, behind a Boolean and a double.
pub fn members(rows: usize) -> Record {
    let members = (1..rows).map(|index| {
        let name = format!("m{index:03}");
        match index % 3 {
            0 => (text(&name), characters(index)),
            1 => (number(0x21, &name), vec![0xFF]),
            _ => (number(0x0A, &name), double(index)),
        }
    });
    let (descriptor, data) = joined("", &members.collect::<Vec<_>>());
    Record {
        what: format!("a record of {rows} rows"),
        descriptor,
        data,
        early: Fault::High(9, 4),
        late: Fault::Cut,
    }
}

/// A member's descriptor and its data.
pub type Member = (Vec<u8>, Vec<u8>);

/// The 14 members that a bath rig sends, these pulses among them.
pub fn rig_members(pulses: Member) -> Vec<Member> {
    let amperes = ["anode", "cathode", "return"];
    let amperes = amperes.map(|name| (number(0x09, name), vec![0x40; 4]));
    [
        &[
            (number(0x07, "identifier"), vec![0, 0, 0, 9]),
            (text("operator"), characters(9)),
            (states("state"), vec![0, 1]),
            (number(0x0A, "temperature"), double(170)),
            (number(0x0A, "current"), double(29)),
        ][..],
        &amperes,
        &[
            (number(0x02, "rack"), vec![0; 2]),
            (number(0x06, "slot"), vec![0; 2]),
            (number(0x04, "started"), vec![0; 8]),
            pulses,
            (number(0x21, "rinsed"), vec![0xFF]),
            (number(0x21, "finished"), vec![0]),
        ],
    ]
    .concat()
}

/// A few pulses.
pub fn pulses() -> Member {
    let (_, words) = elements(|index| vec![0, 0, 1, index as u8], Extent::Count(4));
    (array("pulses", number(0x07, "")), words)
}

/// Doubles in place of the pulses.
pub fn pulse_times(extent: Extent) -> Member {
    (
        array("pulses", number(0x0A, "")),
        elements(double, extent).1,
    )
}

/// The cluster of these members and their data.
pub fn joined(name: &str, members: &[Member]) -> Member {
    let (descriptors, data): (Vec<_>, Vec<_>) = members.iter().cloned().unzip();
    (cluster(name, &descriptors), data.concat())
}
