//! The library's questions, each asked in both its forms: the entry that returns a
//! struct and the one that fills lent numbers. A difference unless both say the
//! same, set every number and leave what stands around it.

mod store;

use kerbcanopy::lent::{self, Numbers, Table};
use kerbcanopy::{Answer, Checked, Compared, Difference, Part, Row, Value};
use reference::Stamp;

use crate::difference::{Held, demand, demand_guarded, outputs};

pub use store::{store_add, store_check, store_find, store_list};

/// A question about data whose answer is written.
pub type Writing = fn(&[u8], &[u8], &mut [u8]) -> Held<Answer>;

/// What stands in and around what is lent before a call.
const PAINT: u8 = 0xA5;
const AROUND: usize = 16;

/// Something lent, between guards.
#[repr(C)]
struct Guarded<T> {
    before: [u8; AROUND],
    lent: T,
    after: [u8; AROUND],
}

impl<T> Guarded<T> {
    fn new(lent: T) -> Guarded<T> {
        let [before, after] = [[PAINT; AROUND]; 2];
        Guarded {
            before,
            lent,
            after,
        }
    }

    fn untouched(&self) -> bool {
        self.before == [PAINT; AROUND] && self.after == [PAINT; AROUND]
    }
}

fn painted() -> Guarded<Numbers> {
    Guarded::new([u32::from_ne_bytes([PAINT; 4]); 3])
}

fn painted_number() -> Guarded<u64> {
    Guarded::new(u64::from_ne_bytes([PAINT; 8]))
}

/// A difference unless the lent numbers are those of the answer.
fn demand_numbers(question: &str, numbers: &Guarded<Numbers>, answer: Answer) -> Held<()> {
    let wanted = [answer.number, answer.input, answer.place];
    demand_lent(question, numbers, &wanted)
}

/// A difference unless this was set, and nothing around it.
fn demand_lent<T: PartialEq + std::fmt::Debug>(
    question: &str,
    lent: &Guarded<T>,
    wanted: &T,
) -> Held<()> {
    let texts = || [format!("{:?}", lent.lent), format!("{wanted:?}")];
    demand(lent.lent == *wanted, question, texts)?;
    demand_guarded(lent.untouched(), question)
}

pub fn check_descriptor(descriptor: &[u8]) -> Held<Checked> {
    let question = "check_descriptor_into";
    let checked = kerbcanopy::check_descriptor(descriptor);
    let mut answer = painted();
    let mut table = Guarded::<Table>::new([u16::from_ne_bytes([PAINT; 2]); 1792]);
    lent::check_descriptor(descriptor, &mut answer.lent, &mut table.lent);
    demand_numbers(question, &answer, checked.answer)?;
    let mut rows = table.lent.chunks_exact(7).zip(&checked.rows);
    let same = rows.all(|(numbers, row)| numbers == words(row));
    let texts = || [format!("{:?}", table.lent), format!("{:?}", checked.rows)];
    demand(same, question, texts)?;
    demand_guarded(table.untouched(), question)?;
    Ok(checked)
}

/// A row as its seven numbers.
pub fn words(row: &Row) -> [u16; 7] {
    let [place, length] = [row.name_place, row.name_length];
    [
        row.code, row.start, row.size, row.depth, row.count, place, length,
    ]
}

pub fn compare(first: &[u8], second: &[u8]) -> Held<Compared> {
    let question = "compare_into";
    let compared = kerbcanopy::compare(first, second);
    let mut answer = painted();
    let mut equal = Guarded::new(PAINT);
    lent::compare(first, second, &mut answer.lent, &mut equal.lent);
    demand_numbers(question, &answer, compared.answer)?;
    demand_lent(question, &equal, &u8::from(compared.equal))?;
    Ok(compared)
}

pub fn check_data(descriptor: &[u8], data: &[u8]) -> Held<Answer> {
    let checked = kerbcanopy::check_data(descriptor, data);
    let mut answer = painted();
    lent::check_data(descriptor, data, &mut answer.lent);
    demand_numbers("check_data_into", &answer, checked)?;
    Ok(checked)
}

pub fn view(descriptor: &[u8], data: &[u8], path: &[u32]) -> Held<Part> {
    let question = "view_into";
    let part = kerbcanopy::view(descriptor, data, path);
    let mut answer = painted();
    let [mut start, mut length] = [painted_number(), painted_number()];
    lent::view(
        descriptor,
        data,
        path,
        &mut answer.lent,
        &mut start.lent,
        &mut length.lent,
    );
    demand_numbers(question, &answer, part.answer)?;
    demand_lent(question, &start, &(part.start as u64))?;
    demand_lent(question, &length, &(part.length as u64))?;
    Ok(part)
}

pub fn read_value(descriptor: &[u8], data: &[u8], path: &[u32]) -> Held<Value> {
    let question = "read_value_into";
    let value = kerbcanopy::read_value(descriptor, data, path);
    let mut answer = painted();
    let mut kind = Guarded::new(u32::from_ne_bytes([PAINT; 4]));
    let mut bits = painted_number();
    lent::read_value(
        descriptor,
        data,
        path,
        &mut answer.lent,
        &mut kind.lent,
        &mut bits.lent,
    );
    demand_numbers(question, &answer, value.answer)?;
    demand_lent(question, &kind, &value.kind)?;
    demand_lent(question, &bits, &value.bits)?;
    Ok(value)
}

pub fn normal_form(descriptor: &[u8], out: &mut [u8]) -> Held<Answer> {
    written(
        "normal_form_into",
        out,
        |room| kerbcanopy::normal_form(descriptor, room),
        |room, answer| lent::normal_form(descriptor, room, answer),
    )
}

pub fn to_little_endian(descriptor: &[u8], data: &[u8], out: &mut [u8]) -> Held<Answer> {
    written(
        "to_little_endian_into",
        out,
        |room| kerbcanopy::to_little_endian(descriptor, data, room),
        |room, answer| lent::to_little_endian(descriptor, data, room, answer),
    )
}

pub fn from_little_endian(descriptor: &[u8], data: &[u8], out: &mut [u8]) -> Held<Answer> {
    written(
        "from_little_endian_into",
        out,
        |room| kerbcanopy::from_little_endian(descriptor, data, room),
        |room, answer| lent::from_little_endian(descriptor, data, room, answer),
    )
}

pub fn read_record(writer: &[u8], reader: &[u8], data: &[u8], out: &mut [u8]) -> Held<Answer> {
    written(
        "read_record_into",
        out,
        |room| kerbcanopy::read_record(writer, reader, data, room),
        |room, answer| lent::read_record(writer, reader, data, room, answer),
    )
}

pub fn stamp_difference(first: Stamp, second: Stamp) -> Held<Difference> {
    let question = "stamp_difference_into";
    let [first, second] = [first, second].map(|stamp| kerbcanopy::Stamp {
        seconds_high: stamp.seconds_high,
        seconds_low: stamp.seconds_low,
        fraction_high: stamp.fraction_high,
        fraction_low: stamp.fraction_low,
    });
    let difference = kerbcanopy::stamp_difference(first, second);
    let mut answer = painted();
    let mut seconds = Guarded::new(i64::from_ne_bytes([PAINT; 8]));
    let mut fraction = painted_number();
    lent::stamp_difference(
        first,
        second,
        &mut answer.lent,
        &mut seconds.lent,
        &mut fraction.lent,
    );
    demand_numbers(question, &answer, difference.answer)?;
    demand_lent(question, &seconds, &difference.seconds)?;
    demand_lent(question, &fraction, &difference.fraction)?;
    Ok(difference)
}

/// Both forms write into equal rooms, the second between guards.
fn written(
    question: &str,
    out: &mut [u8],
    by_struct: impl FnOnce(&mut [u8]) -> Answer,
    by_numbers: impl FnOnce(&mut [u8], &mut Numbers),
) -> Held<Answer> {
    written_items(question, out, by_struct, by_numbers, outputs)
}

/// The same for bytes or numbers; `texts` tells two rooms that differ.
fn written_items<T: Copy + PartialEq + From<u8>>(
    question: &str,
    out: &mut [T],
    by_struct: impl FnOnce(&mut [T]) -> Answer,
    by_numbers: impl FnOnce(&mut [T], &mut Numbers),
    texts: impl FnOnce(&[T], &[T]) -> [String; 2],
) -> Held<Answer> {
    let guard = [T::from(PAINT); AROUND];
    let mut room = [&guard[..], &*out, &guard[..]].concat();
    let end = AROUND + out.len();
    let mut answer = painted();
    by_numbers(&mut room[AROUND..end], &mut answer.lent);
    let given = by_struct(out);
    demand_numbers(question, &answer, given)?;
    let same = room[AROUND..end] == *out;
    demand(same, question, || texts(&room[AROUND..end], out))?;
    demand_guarded(room[..AROUND] == guard && room[end..] == guard, question)?;
    Ok(given)
}
