//! The elements of the arrays that are timed.

use crate::inputs::descriptors::{array, cluster, number, stamp, states, text};

/// What an array is made of.
pub struct Element {
    pub what: &'static str,
    pub descriptor: Vec<u8>,
    /// The bytes of the element of this number.
    pub data: fn(usize) -> Vec<u8>,
    /// Place and width of the first number that can be refused: the size word's,
    /// or one in the first element.
    pub first: (usize, usize),
    /// The width of the last number, where it can be refused.
    pub last: Option<usize>,
}

/// A number that is never refused, or a cluster of such.
fn plain(what: &'static str, descriptor: Vec<u8>, data: fn(usize) -> Vec<u8>) -> Element {
    Element {
        what,
        descriptor,
        data,
        first: (0, 4),
        last: None,
    }
}

pub fn doubles() -> Element {
    plain("doubles", number(0x0A, ""), double)
}

pub fn halves() -> Element {
    plain("16-bit numbers", number(0x02, ""), |index| {
        (index as u16).to_be_bytes().to_vec()
    })
}

pub fn bytes() -> Element {
    plain("8-bit numbers", number(0x05, ""), |index| vec![index as u8])
}

pub fn complex() -> Element {
    plain("complex doubles", number(0x0D, ""), two_doubles)
}

pub fn pairs() -> Element {
    let pair = cluster("", &[number(0x0A, "x"), number(0x0A, "y")]);
    plain("clusters of two doubles", pair, two_doubles)
}

pub fn mixed() -> Element {
    let members = [
        number(0x07, "id"),
        number(0x0A, "t"),
        number(0x02, "n"),
        number(0x02, "m"),
    ];
    plain("clusters of four widths", cluster("", &members), |index| {
        [vec![0, 0, 0, 9], double(index), vec![0, 7, 0, 8]].concat()
    })
}

pub fn stamps() -> Element {
    plain("time stamps", stamp(""), |index| {
        let seconds = (0xE206_CAA6 + index as u64).to_be_bytes();
        [seconds, (3_u64 << 62).to_be_bytes()].concat()
    })
}

/// Of every byte by turns.
pub fn flags() -> Element {
    plain("Booleans", number(0x21, ""), |index| vec![index as u8])
}

pub fn enumerations() -> Element {
    Element {
        first: (4, 2),
        last: Some(2),
        ..plain("16-bit enumerations", states(""), |index| {
            vec![0, (index % 3) as u8]
        })
    }
}

/// A Boolean and an enumeration, which is judged, behind a double.
pub fn judged() -> Element {
    let members = [number(0x0A, "t"), number(0x21, "ok"), states("state")];
    Element {
        first: (13, 2),
        last: Some(2),
        ..plain(
            "clusters with a judged member",
            cluster("", &members),
            |index| [double(index), vec![0xFF, 0, 2]].concat(),
        )
    }
}

pub fn texts() -> Element {
    Element {
        first: (4, 4),
        ..plain("strings", text(""), characters)
    }
}

pub fn clusters() -> Element {
    let blank = cluster("", &[number(0x07, "id"), number(0x0A, "t"), text("note")]);
    Element {
        first: (16, 4),
        ..plain("clusters with a string", blank, |index| {
            let id = (index as u32).to_be_bytes().to_vec();
            [id, double(index), characters(index)].concat()
        })
    }
}

pub fn two_texts() -> Element {
    let blank = cluster("", &[text("operator"), number(0x0A, "t"), text("note")]);
    Element {
        first: (4, 4),
        ..plain("clusters with two strings", blank, |index| {
            [characters(index), double(index), characters(index)].concat()
        })
    }
}

pub fn arrays() -> Element {
    let blank = cluster("", &[number(0x07, "id"), array("pulses", number(0x07, ""))]);
    Element {
        first: (8, 4),
        ..plain("clusters with an array", blank, |_| {
            [vec![0, 0, 0, 9, 0, 0, 0, 3], vec![7; 12]].concat()
        })
    }
}

pub fn nested() -> Element {
    let inner = cluster("", &[number(0x02, "n"), text("note")]);
    let middle = cluster("", &[inner, number(0x21, "ok")]);
    let outer = cluster("", &[number(0x0A, "t"), middle, states("state")]);
    Element {
        first: (14, 4),
        last: Some(2),
        ..plain("clusters nested three deep", outer, |index| {
            let inner = [vec![0, 7], characters(index)].concat();
            [double(index), inner, vec![1, 0, 2]].concat()
        })
    }
}

pub fn double(index: usize) -> Vec<u8> {
    (index as f64 / 7.0).to_be_bytes().to_vec()
}

fn two_doubles(index: usize) -> Vec<u8> {
    [double(index), double(index + 1)].concat()
}

pub fn characters(index: usize) -> Vec<u8> {
    let text = format!("blank {index}");
    [&(text.len() as u32).to_be_bytes(), text.as_bytes()].concat()
}
