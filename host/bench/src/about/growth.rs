//! How cost grows with rows, with data and with a book.

use crate::about::books::{self, PLACES};
use crate::about::order::lent_in;
use crate::about::records;
use crate::asked::Asked;
use crate::case::Case;
use crate::inputs::books::{Book, shortest};
use crate::inputs::descriptors::numbers;
use crate::inputs::elements::{self, Element};
use crate::inputs::records::{Extent, Order, Record, array_of, members};
use crate::inputs::shapes;
use crate::inputs::variants::{late_difference, with_reserved};
use crate::questions::{self, ROOM};

const ROWS: [usize; 4] = [2, 16, 64, 256];
const BYTES: [usize; 4] = [1024, 4096, 16384, 65536];

/// What grows along a curve.
#[derive(Clone, Copy, PartialEq, Eq)]
pub enum Along {
    Rows,
    Bytes,
}

/// Points in order, all of one entry and about the same thing.
pub struct Curve {
    pub along: Along,
    pub points: Vec<Case>,
}

pub fn curves() -> Vec<Curve> {
    let mut curves = by_rows();
    curves.extend(by_bytes());
    curves.extend(by_book());
    curves
}

fn curve(along: Along, point: impl Fn(usize) -> Case) -> Curve {
    let places = match along {
        Along::Rows => ROWS,
        Along::Bytes => BYTES,
    };
    let points = places.map(|place| point(place).at(place)).into();
    Curve { along, points }
}

fn by_rows() -> Vec<Curve> {
    let of_numbers = |entry, what: &'static str, ask: fn(&[u8]) -> _| {
        curve(Along::Rows, |rows| {
            let bytes = numbers(rows);
            Case::new(entry, what, bytes.len(), ask(&bytes))
        })
    };
    vec![
        of_numbers("check_descriptor", "numbers", questions::check_descriptor),
        of_numbers("normal_form", "numbers", |bytes| {
            questions::normal_form(bytes, ROOM)
        }),
        of_numbers("compare", "the same bytes", |bytes| {
            questions::compare(bytes, bytes)
        }),
        of_numbers("compare", "reserved bytes differ", |bytes| {
            questions::compare(bytes, &with_reserved(bytes, 0x40))
        }),
        of_numbers("compare", "late difference", |bytes| {
            questions::compare(bytes, &late_difference(bytes))
        }),
        curve(Along::Rows, |rows| {
            let record = members(rows);
            let asked = questions::check_data(&record.descriptor, &record.data);
            Case::new("check_data", "a record", record.data.len(), asked)
        }),
        curve(Along::Rows, |rows| {
            let shape = shapes::all_reversed("all members in reverse", rows);
            let asked = records::ask(&shape, ROOM);
            Case::new("read_record", &shape.what, shape.data.len(), asked)
        }),
    ]
}

fn by_bytes() -> Vec<Curve> {
    let mut curves = of_checks();
    for element in [elements::doubles, elements::clusters] {
        curves.push(of_array("to_little_endian", element, |record| {
            questions::to_little_endian(&record.descriptor, &record.data, ROOM)
        }));
    }
    let element = elements::clusters;
    curves.extend([
        of_array("from_little_endian", element, |record| {
            let form = lent_in(Order::Little, record);
            questions::from_little_endian(&record.descriptor, &form, ROOM)
        }),
        of_array("view", element, |record| {
            let path = [vec![last(record), 2]];
            questions::view(&record.descriptor, &record.data, &path)
        }),
        of_array("read_value", element, |record| {
            let path = [vec![last(record), 1]];
            questions::read_value(&record.descriptor, &record.data, &path)
        }),
        curve(Along::Bytes, |bytes| {
            let shape = shapes::long(bytes);
            let asked = records::ask(&shape, ROOM);
            Case::new("read_record", &shape.what, shape.data.len(), asked)
        }),
    ]);
    curves
}

/// Books filled with the shortest records.
fn by_book() -> Vec<Curve> {
    let of_book = |entry, what: &'static str, ask: fn(&Book) -> Asked| {
        curve(Along::Bytes, |bytes| {
            let book = shortest(bytes);
            Case::new(entry, what, bytes, ask(&book))
        })
    };
    vec![
        of_book("store_check", "a full book", |book| {
            questions::store_check(&book.bytes)
        }),
        of_book("store_add", "the last record of a book", books::add_last),
        of_book("store_find", "the last of a full book", |book| {
            questions::store_find(&book.bytes, &[book.last()])
        }),
        of_book("store_list", "a full book", |book| {
            questions::store_list(&book.bytes, PLACES)
        }),
    ]
}

/// The check of data of several kinds.
fn of_checks() -> Vec<Curve> {
    let kinds = [
        elements::doubles,
        elements::flags,
        elements::enumerations,
        elements::clusters,
        elements::two_texts,
        elements::nested,
    ];
    let curves = kinds.map(|element| {
        of_array("check_data", element, |record| {
            questions::check_data(&record.descriptor, &record.data)
        })
    });
    curves.into()
}

fn of_array(
    entry: &'static str,
    element: fn() -> Element,
    ask: impl Fn(&Record) -> Asked,
) -> Curve {
    let element = element();
    curve(Along::Bytes, |bytes| {
        let record = array_of(&element, Extent::Bytes(bytes));
        Case::new(entry, element.what, record.data.len(), ask(&record))
    })
}

/// The number of an array's last element.
fn last(record: &Record) -> u32 {
    let words = record.data.first_chunk().copied();
    u32::from_be_bytes(words.unwrap_or_default()) - 1
}
