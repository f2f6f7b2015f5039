//! One case: a record, a reader, perhaps a second record that must get the same
//! answers, and what the generator knows of them.

use super::limits::Limit;
use super::rig::{self, Rig};
use super::stated::{Stated, stated};
use super::{wanted, wide};
use crate::data::damage::damage;
use crate::descriptor::case::encode;
use crate::descriptor::damage::damage as damage_descriptor;
use crate::grow;
use crate::kind::Kind;
use crate::random::Random;
use crate::tree::{Body, Tree, fits};

pub struct Case {
    pub kind: Kind,
    pub what: String,
    pub record: Record,
    pub reader: Vec<u8>,
    /// A record that agrees with the first on the reader's members.
    pub agreeing: Option<Record>,
    /// What is given in room enough, where the generator knows it.
    pub stated: Option<Stated>,
}

/// A writer's descriptor and data under it.
pub struct Record {
    pub writer: Vec<u8>,
    pub data: Vec<u8>,
    /// What a read past the end of the data would find in place of a guard.
    pub beyond: Vec<u8>,
}

impl Record {
    pub fn new(random: &mut Random, writer: &Tree, data: Vec<u8>) -> Record {
        Record {
            writer: encode(random, writer).bytes,
            data,
            beyond: Vec::new(),
        }
    }
}

/// A case of one record of which nothing is known.
pub fn bare(kind: Kind, record: Record, reader: Vec<u8>) -> Case {
    Case {
        kind,
        what: kind.words().into(),
        record,
        reader,
        agreeing: None,
        stated: None,
    }
}

impl Case {
    /// The case of a limit.
    pub fn of_limit(limit: &Limit) -> Case {
        let record = Record {
            writer: limit.writer.normal_form().bytes,
            data: limit.data.clone(),
            beyond: Vec::new(),
        };
        let reader = limit.reader.normal_form().bytes;
        Case {
            what: limit.what.clone(),
            stated: Some(limit.stated.clone()),
            ..bare(Kind::RecordLimit, record, reader)
        }
    }

    /// A case by chance.
    pub fn any(random: &mut Random) -> Case {
        if random.once_in(60) {
            return match random.once_in(6) {
                true => wide::long(random),
                false => wide::wide(random),
            };
        }
        let rig = Rig::any(random);
        match random.below(20) {
            0..8 => asked(random, &rig),
            8..14 => agreeing(random, &rig),
            14..18 => damaged(random, &rig),
            18 => misread(random, &rig),
            _ => no_cluster(random, &rig),
        }
    }
}

/// A reader that was made from the writer.
fn asked(random: &mut Random, rig: &Rig) -> Case {
    let (writer, data) = (rig.tree(), rig.record().data.big);
    let reader = wanted::any(random, rig);
    let known = stated(&writer, &reader, &data, &rig.spans());
    let record = Record::new(random, &writer, data);
    Case {
        stated: fits(&reader).then_some(known),
        ..bare(Kind::Record, record, encode(random, &reader).bytes)
    }
}

/// The same, and another writer that has what the reader asks for.
fn agreeing(random: &mut Random, rig: &Rig) -> Case {
    let reader = wanted::any(random, rig);
    let other = rig.agreeing(random, &wanted::names(&reader));
    let known = stated(&rig.tree(), &reader, &rig.record().data.big, &rig.spans());
    let [record, agreeing] =
        [rig, &other].map(|rig| Record::new(random, &rig.tree(), rig.record().data.big));
    Case {
        agreeing: Some(agreeing),
        stated: fits(&reader).then_some(known),
        ..bare(Kind::Agreeing, record, encode(random, &reader).bytes)
    }
}

/// Data with a fault, which need not be in what the reader asks for. Where the
/// data is accepted all the same, the members stand where they stood.
fn damaged(random: &mut Random, rig: &Rig) -> Case {
    let damaged = damage(random, &rig.record());
    let reader = wanted::any(random, rig);
    let data = damaged.data.big;
    let known = damaged.answer.map(|answer| match answer.number {
        0 => stated(&rig.tree(), &reader, &data, &rig.spans()),
        _ => Err(answer),
    });
    let record = Record {
        beyond: damaged.beyond,
        ..Record::new(random, &rig.tree(), data)
    };
    Case {
        stated: known.filter(|_| fits(&reader)),
        ..bare(Kind::DamagedRecord, record, encode(random, &reader).bytes)
    }
}

/// A writer, a reader or both that are damaged or too large, and at times data that
/// is refused as well.
fn misread(random: &mut Random, rig: &Rig) -> Case {
    let mut record = Record::new(random, &rig.tree(), rig.record().data.big);
    let reader = wanted::any(random, rig);
    let mut reader = encode(random, &reader);
    if random.once_in(3) {
        record.data = damage(random, &rig.record()).data.big;
    }
    let which = random.below(5);
    if which != 0 && which != 1 {
        record.writer = match random.once_in(2) {
            true => damage_descriptor(random, &rig.tree().normal_form()).bytes,
            false => grow::wild(random).normal_form().bytes,
        };
    }
    if which != 2 && which != 3 {
        reader.bytes = match random.once_in(2) {
            true => damage_descriptor(random, &reader).bytes,
            false => grow::wild(random).normal_form().bytes,
        };
    }
    bare(Kind::DamagedRecord, record, reader.bytes)
}

/// A writer, a reader or both whose top is no cluster.
fn no_cluster(random: &mut Random, rig: &Rig) -> Case {
    let (mut writer, mut data) = (rig.tree(), rig.record().data.big);
    let mut reader = wanted::any(random, rig);
    let which = random.below(3);
    if which != 0 {
        let is_cluster = |tree: &Tree| matches!(tree.body, Body::Cluster(_));
        let other = rig.members.iter().find(|member| !is_cluster(&member.tree));
        (writer, data) = match other {
            Some(member) => (member.tree.clone(), member.data.big.clone()),
            None => (rig::number(0x05, rig::name(random)), vec![random.byte()]),
        };
    }
    if which != 1 {
        reader = match random.once_in(2) {
            true => rig::number(0x07, rig::name(random)),
            false => Tree::unnamed(Body::Array(1, Box::new(reader))),
        };
    }
    let known = stated(&writer, &reader, &data, &rig.spans());
    let record = Record::new(random, &writer, data);
    // An array around the reader may be too deep.
    let stated = reference::check_descriptor(&reader.normal_form().bytes);
    Case {
        stated: (stated.answer.number == 0).then_some(known),
        ..bare(Kind::NoRecord, record, encode(random, &reader).bytes)
    }
}
