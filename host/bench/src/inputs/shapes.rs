//! Readers' shapes, each with a writer's record.

use crate::inputs::descriptors::{cluster, number};
use crate::inputs::records::{
    Extent, Fault, Member, Order, joined, members, pulse_times, pulses, rig, rig_members,
};
use crate::inputs::variants::{refused_early, refused_late};

#[derive(Clone)]
pub struct Shape {
    pub what: String,
    pub writer: Vec<u8>,
    pub reader: Vec<u8>,
    pub data: Vec<u8>,
}

impl Shape {
    /// A reader of these members out of the writer's.
    fn new(what: &str, writer: &[Member], reader: &[Vec<u8>]) -> Shape {
        let (writer, data) = joined("blank", writer);
        Shape {
            what: what.into(),
            writer,
            reader: cluster("", reader),
            data,
        }
    }

    /// The same with another writer's descriptor, reader's or data.
    fn but(&self, what: &str, change: impl FnOnce(&mut Shape)) -> Shape {
        let mut shape = self.clone();
        shape.what = what.into();
        change(&mut shape);
        shape
    }
}

/// Shapes that are read.
pub fn accepted() -> Vec<Shape> {
    let members = rig_members(pulses());
    let descriptors = descriptors(&members);
    let [first, array, last] = [0, 11, 13].map(|place| descriptors[place].clone());
    let times = pulse_times(Extent::Count(8000));
    let long = [times.0.clone()];
    vec![
        Shape::new("3 out of 14 members", &members, &[last, first, array]),
        reversed("14 out of 14 members in reverse", &members),
        Shape::new("8,000 doubles out of 14", &rig_members(times), &long),
        all_reversed("255 out of 255 members in reverse", 256),
        one_of_many(),
    ]
}

/// Shapes that are refused before most is looked at.
pub fn refused_soon() -> Vec<Shape> {
    let rig = rig();
    let members = rig_members(pulses());
    let all = reversed("", &members);
    let mut other_type = descriptors(&members);
    other_type[0] = number(0x03, "identifier");
    vec![
        all.but("14 members, writer refused early", |shape| {
            shape.writer = refused_early(&shape.writer);
        }),
        all.but("14 members, reader refused early", |shape| {
            shape.reader = refused_early(&shape.reader);
        }),
        all.but("14 members, data refused early", |shape| {
            shape.data = rig.early.put_into(&shape.data, Order::Big);
        }),
        Shape::new(
            "the first of 14 members refused: type",
            &members,
            &other_type,
        ),
    ]
}

/// Shapes that are refused at the end.
pub fn refused_last() -> Vec<Shape> {
    let members = rig_members(pulses());
    let all = reversed("", &members);
    let with_last = |what: &str, last: Vec<u8>| {
        let mut reader = descriptors(&members);
        reader[13] = last;
        Shape::new(what, &members, &reader)
    };
    let mut doubled = members.clone();
    doubled.push(members[13].clone());
    vec![
        with_last(
            "the last of 14 members refused: type",
            number(0x05, "finished"),
        ),
        with_last(
            "the last of 14 members refused: missing",
            number(0x21, "polished"),
        ),
        Shape::new(
            "the last of 14 members refused: doubled",
            &doubled,
            &descriptors(&members),
        ),
        with_last(
            "the last of 14 members refused: name again",
            number(0x21, "identifier"),
        ),
        all.but("14 members, reader refused late", |shape| {
            shape.reader = refused_late(&shape.reader);
        }),
        all.but("14 members, data refused late", |shape| {
            shape.data = Fault::Cut.put_into(&shape.data, Order::Big);
        }),
    ]
}

/// The pulses out of a rig's record that is as long as this.
pub fn long(bytes: usize) -> Shape {
    let rest = rig().data.len();
    let times = pulse_times(Extent::Bytes(bytes - rest));
    let reader = [times.0.clone()];
    Shape::new("an array of doubles", &rig_members(times), &reader)
}

/// All members of a record with so many rows, from the last to the first.
pub fn all_reversed(what: &str, rows: usize) -> Shape {
    let record = members(rows);
    let mut descriptors = parts(&record.descriptor);
    descriptors.reverse();
    Shape {
        what: what.into(),
        writer: record.descriptor,
        reader: cluster("", &descriptors),
        data: record.data,
    }
}

/// The last of the members of the widest record.
fn one_of_many() -> Shape {
    let all = all_reversed("", 256);
    all.but("1 out of 255 members", |shape| {
        shape.reader = cluster("", &parts(&shape.reader)[..1]);
    })
}

fn reversed(what: &str, members: &[Member]) -> Shape {
    let reversed: Vec<Vec<u8>> = descriptors(members).into_iter().rev().collect();
    Shape::new(what, members, &reversed)
}

fn descriptors(members: &[Member]) -> Vec<Vec<u8>> {
    members.iter().map(|member| member.0.clone()).collect()
}

/// The members' descriptors in a cluster of members without parts.
fn parts(bytes: &[u8]) -> Vec<Vec<u8>> {
    let checked = reference::check_descriptor(bytes);
    let rows = &checked.rows[1..checked.answer.place as usize];
    let part = |row: &reference::Row| {
        bytes[usize::from(row.start)..usize::from(row.start + row.size)].to_vec()
    };
    rows.iter().map(part).collect()
}
