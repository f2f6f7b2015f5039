//! One case: the bytes to ask about, what the generator knows of the answer,
//! and the descriptors to compare it with.

use reference::Answer;

use super::damage::damage;
use super::fault;
use super::limits::Limit;
use crate::grow;
use crate::kind::Kind;
use crate::random::Random;
use crate::tight;
use crate::tree::{Encoded, StatedRow, Tree, fits};
use crate::twin::{Change, twin};

pub struct Case {
    pub kind: Kind,
    pub what: String,
    pub bytes: Vec<u8>,
    /// What a read past the end would find in place of a guard.
    pub beyond: Vec<u8>,
    pub stated: Stated,
    pub partners: Vec<Partner>,
}

/// What the generator itself says of a case, where it can.
#[derive(Default)]
pub struct Stated {
    pub answer: Option<Answer>,
    pub rows: Option<Vec<StatedRow>>,
    pub normal_form: Option<Vec<u8>>,
}

/// A descriptor to compare with, whether the two are equal, and what differs,
/// where these are known.
pub struct Partner {
    pub bytes: Vec<u8>,
    pub equal: Option<bool>,
    pub change: Option<Change>,
}

/// A case without partners or a statement.
fn bare(kind: Kind, bytes: Vec<u8>) -> Case {
    Case {
        kind,
        what: kind.words().into(),
        bytes,
        beyond: Vec::new(),
        stated: Stated::default(),
        partners: Vec::new(),
    }
}

impl Case {
    /// The case of a limit.
    pub fn of_limit(limit: &Limit, random: &mut Random) -> Case {
        let mut case = bare(Kind::Limit, limit.bytes.clone());
        case.what.clone_from(&limit.what);
        case.stated.answer = Some(limit.answer);
        case.with_strangers(random)
    }

    /// A case by chance.
    pub fn any(random: &mut Random) -> Case {
        let case = match random.below(44) {
            0..13 => {
                let tree = grow::tame(random);
                tree_case(random, Kind::Tree, &tree)
            }
            13 => tight_case(random),
            14..26 => {
                let tree = grow::tame(random);
                damaged_case(random, &tree)
            }
            26..29 => {
                let tree = tight::deep(random);
                damaged_case(random, &tree)
            }
            29 => {
                let tree = tight::tree(random);
                damaged_case(random, &tree)
            }
            30..34 => wild_case(random),
            34..38 => bare(Kind::Headed, headed(random)),
            38..42 => pointed_case(random),
            _ => bare(Kind::Random, random_bytes(random)),
        };
        case.with_strangers(random)
    }

    /// Adds partners that have nothing to do with the case, now and then one of a
    /// length at the limit.
    fn with_strangers(mut self, random: &mut Random) -> Case {
        if !matches!(self.kind, Kind::Tree | Kind::Tight) {
            let other = grow::tame(random);
            self.partners.push(unknown(encode(random, &other).bytes));
        }
        if random.once_in(16) {
            let length = random.pick(&[4095, 4096, 4097, 5000]);
            let mut long = vec![0; length];
            let start = self.bytes.len().min(length);
            long[..start].copy_from_slice(&self.bytes[..start]);
            self.partners.push(unknown(long));
        }
        self
    }
}

fn unknown(bytes: Vec<u8>) -> Partner {
    Partner {
        bytes,
        equal: None,
        change: None,
    }
}

/// A tree's bytes with reserved bytes of zero, of one value or of many.
pub fn encode(random: &mut Random, tree: &Tree) -> Encoded {
    match random.below(4) {
        0 => tree.normal_form(),
        1 => {
            let reserved = random.byte();
            tree.encode(&mut || reserved)
        }
        _ => tree.encode(&mut || random.byte()),
    }
}

/// A tree that must be accepted, its twin, a stranger and a damaged copy.
fn tree_case(random: &mut Random, kind: Kind, tree: &Tree) -> Case {
    let encoded = encode(random, tree);
    let mut case = bare(kind, encoded.bytes.clone());
    case.stated = Stated {
        answer: Some(Answer {
            number: 0,
            input: 0,
            place: encoded.rows.len() as u32,
        }),
        rows: Some(encoded.rows.clone()),
        normal_form: Some(tree.normal_form().bytes),
    };
    let stranger = grow::tame(random);
    let change = match stranger == *tree {
        true => Change::Nothing,
        false => Change::Everything,
    };
    for (other, change) in [twin(random, tree), (stranger, change)] {
        case.partners.push(Partner {
            bytes: encode(random, &other).bytes,
            equal: Some(other == *tree && fits(&other)),
            change: Some(change),
        });
    }
    let damaged = damage(random, &encoded).bytes;
    case.partners.push(unknown(damaged));
    case
}

/// A tree at the limits or one past some of them.
fn tight_case(random: &mut Random) -> Case {
    let tree = tight::tree(random);
    if tree.is_lawful() && fits(&tree) {
        return tree_case(random, Kind::Tight, &tree);
    }
    let encoded = encode(random, &tree);
    let mut case = bare(Kind::Tight, encoded.bytes.clone());
    for _ in 0..2 {
        case.partners.push(unknown(damage(random, &encoded).bytes));
    }
    case
}

fn damaged_case(random: &mut Random, tree: &Tree) -> Case {
    let encoded = encode(random, tree);
    let damaged = damage(random, &encoded);
    let mut case = bare(Kind::Damaged, damaged.bytes);
    case.beyond = damaged.beyond;
    case.partners.push(unknown(damage(random, &encoded).bytes));
    case.partners.push(unknown(encoded.bytes));
    case
}

/// A fault whose number and place are known.
fn pointed_case(random: &mut Random) -> Case {
    let fault = fault::any(random);
    let mut case = bare(Kind::Pointed, fault.bytes);
    case.stated.answer = Some(Answer {
        number: fault.number,
        input: 1,
        place: fault.place as u32,
    });
    case
}

fn wild_case(random: &mut Random) -> Case {
    let tree = grow::wild(random);
    let encoded = encode(random, &tree);
    let mut case = bare(Kind::Wild, encoded.bytes.clone());
    case.partners.push(unknown(damage(random, &encoded).bytes));
    case
}

/// A header that passes 2 to 5, a likely count, then likely and random words.
fn headed(random: &mut Random) -> Vec<u8> {
    let length = 2 * random.between(2, 30);
    let codes = [
        0x03, 0x15, 0x17, 0x19, 0x1E, 0x21, 0x30, 0x40, 0x50, 0x50, 0x54,
    ];
    let code = random.pick(&codes);
    let mut bytes = vec![0, length as u8, random.byte(), code];
    while bytes.len() < length {
        let likely = [
            0, 1, 2, 3, 4, 4, 6, 8, 10, 0x15, 0x1A, 0x30, 0x40, 0x50, 0xFFFF,
        ];
        let word = match random.once_in(6) {
            true => random.next() as u16,
            false => random.pick(&likely),
        };
        bytes.extend(word.to_be_bytes());
    }
    if random.once_in(6) {
        bytes.push(random.byte());
    }
    bytes
}

fn random_bytes(random: &mut Random) -> Vec<u8> {
    let length = match random.below(12) {
        0 => match random.once_in(4) {
            true => random.pick(&[4095, 4096, 4097, 4098, 4099]),
            false => random.between(4000, 4200),
        },
        1..4 => random.below(200),
        _ => random.below(12),
    };
    let mut bytes = random.bytes(length);
    if random.once_in(2) {
        bytes.iter_mut().step_by(2).for_each(|byte| *byte = 0);
    }
    bytes
}
