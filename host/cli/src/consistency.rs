//! The listings, the views and values by path, and the refusals held against each
//! other and against the library, on descriptors and data at random.

mod answers;
mod books;
mod damage;
mod explained;
mod grow;
#[path = "../tests/common/json.rs"]
mod parsed;

use std::ffi::OsString;

use kerbcanopy::{Answer, Row};

use crate::arguments::Options;
use crate::ask;
use crate::command::Request;
use crate::descriptor::Descriptor;
use crate::difference;
use crate::input::Input;
use crate::layout::{self, Field, Layout, Sort};
use crate::outcome::{Outcome, Status};
use crate::refusal::{Lent, Refusal};
use crate::tokens::{self, Found, Order, Part};
use crate::value;
use crate::words::quoted;
use explained::tiles;
use grow::Random;
use parsed::Json;

/// How many descriptors each test grows, or a share of them.
const ROUNDS: u64 = 1500;

fn input(bytes: &[u8]) -> Input {
    let name = "file".to_string();
    let bytes = bytes.to_vec();
    Input {
        name,
        bytes,
        text: false,
    }
}

/// Asks with `--json` and `--all`.
fn asked(
    question: fn(&Request) -> Result<Outcome, String>,
    files: &[&[u8]],
    steps: &[OsString],
) -> (Status, Json) {
    let options = Options {
        json: true,
        all: true,
        ..Options::default()
    };
    let outcome = question(&Request {
        operands: &[],
        files: files.iter().map(|bytes| input(bytes)).collect(),
        words: steps,
        options: &options,
    });
    let outcome = outcome.expect("there is no trouble");
    let line = String::from_utf8(outcome.answer).expect("it is text");
    (
        outcome.status,
        parsed::parse(line.trim_end()).expect("it is JSON"),
    )
}

/// The steps to each row, from the depths alone.
fn paths(rows: &[Row]) -> Vec<Vec<u32>> {
    let mut path: Vec<u32> = Vec::new();
    let mut paths = Vec::new();
    for row in rows {
        let steps = usize::from(row.depth) - 1;
        match path.get(..steps) {
            Some(known) => {
                path = known.to_vec();
                path.last_mut().into_iter().for_each(|last| *last += 1);
            }
            None => path.push(0),
        }
        paths.push(path.clone());
    }
    paths
}

fn numbers(list: &Json) -> Vec<u32> {
    list.list()
        .iter()
        .map(|step| step.number() as u32)
        .collect()
}

/// The parts of accepted data, every one.
fn parts(types: &Descriptor, data: &[u8]) -> Vec<Part> {
    let answer = kerbcanopy::check_data(types.bytes, data);
    let found = tokens::walk(types, data, answer, Order::Big, u64::MAX).found;
    let part = |found| match found {
        Found::Part(part) => part,
        Found::More(more) => panic!("not every element is listed: {more:?}"),
    };
    found.into_iter().map(part).collect()
}

/// The steps of a path: names where one is unique there, else numbers.
fn steps(types: &Descriptor, path: &[u32]) -> Vec<OsString> {
    let mut row = 0;
    let mut steps = Vec::new();
    for step in path {
        let members = types.inside(row);
        let array = types.rows[row].code == 0x40;
        let stamp = types.rows[row].code == 0x54;
        row = if array {
            members[0]
        } else {
            members[*step as usize]
        };
        let name = types.name(row).filter(|_| !array && !stamp);
        let same = members
            .iter()
            .filter(|member| types.name(**member) == name)
            .count();
        steps.push(match name {
            Some(name) if same == 1 => quoted(name).into(),
            _ => step.to_string().into(),
        });
    }
    steps
}

/// A dump's part against the view and the value of the same path.
fn agrees(types: &Descriptor, data: &[u8], part: &Json) {
    let path = numbers(part.at("path"));
    let steps = steps(types, &path);
    let files = [types.bytes, data];
    let (status, view) = asked(ask::view, &files, &steps);
    assert_eq!(status, Status::Accepted);
    for field in ["start", "length"] {
        assert_eq!(view.at(field), part.at(field), "{part:?}");
    }
    let (status, read) = asked(ask::value, &files, &steps);
    if status == Status::Accepted {
        assert_eq!(read.at("text").text(), part.at("text").text(), "{part:?}");
        for field in ["kind", "value", "bits"] {
            assert_eq!(read.at(field), part.at(field), "{part:?}");
        }
    } else {
        if part.at("code").number() == 0x54 {
            stamp_agrees(&files, &path, part);
        }
        assert_eq!(
            (read.at("number").number(), part.fields().contains(&"kind")),
            (31, false)
        );
        assert_eq!(numbers(read.at("path")), path);
    }
}

/// A dump's stamp against the four values below it, and its difference to itself.
fn stamp_agrees(files: &[&[u8]], path: &[u32], part: &Json) {
    let half = |member: u32| {
        let path = [path, &[0, member]].concat();
        let read = kerbcanopy::read_value(files[0], files[1], &path);
        assert_eq!(read.answer.number, 0);
        read.bits as u32
    };
    let joined = |high: u32, low: u32| u64::from(high) << 32 | u64::from(low);
    let seconds = joined(half(0), half(1)) as i64;
    assert_eq!(part.at("seconds"), &Json::Number(seconds.to_string()));
    let fraction = joined(half(2), half(3));
    assert_eq!(part.at("fraction"), &Json::Number(fraction.to_string()));
    let time = part.at("time").text();
    assert!(time.starts_with(&crate::date::since_1904(seconds).iso()));
    let steps: Vec<String> = path.iter().map(u32::to_string).collect();
    let steps: OsString = steps.join(" ").into();
    let both = [steps.clone(), steps];
    let (status, zero) = asked(ask::difference, files, &both);
    assert_eq!((status, zero.at("text").text()), (Status::Accepted, "0"));
    let (status, zero) = asked(ask::difference, &[files, files].concat(), &both);
    assert_eq!((status, zero.at("text").text()), (Status::Accepted, "0"));
}

#[test]
fn differences_of_stamps_are_exact() {
    let own = grow::STAMP;
    for seed in 0..10 * ROUNDS {
        let mut random = Random::new(seed);
        // Far apart, near each other, and at the ends of what there is.
        let mut first = random.stamp();
        let second = match seed % 3 {
            0 => random.stamp(),
            1 => first ^ i128::from(random.next()),
            _ => {
                first = i128::MIN + i128::from(random.next());
                i128::from(random.next()) << 64
            }
        };
        let files = [own, &first.to_be_bytes(), own, &second.to_be_bytes()];
        let path = OsString::from("-");
        let (status, json) = asked(ask::difference, &files, &[path.clone(), path]);
        let number = json.at("number").number();
        match first.checked_sub(second) {
            None => assert_eq!((status, number), (Status::Refused, 32)),
            Some(units) => {
                assert_eq!((status, number), (Status::Accepted, 0));
                let fields = [(units >> 64) as i64 as i128, units as u64 as i128];
                for (name, field) in ["seconds", "fraction"].into_iter().zip(fields) {
                    assert_eq!(json.at(name), &Json::Number(field.to_string()));
                }
            }
        }
    }
}

#[test]
fn dumps_agree_with_views_and_values() {
    for seed in 0..ROUNDS {
        let mut random = Random::new(seed);
        let types = grow::types(&mut random);
        let types = Descriptor::of(&types).expect("it is accepted");
        let data = grow::data(&mut random, &types);
        let (status, dump) = asked(ask::dump, &[types.bytes, &data], &[]);
        assert_eq!(status, Status::Accepted);
        let listed = dump.at("parts").list();
        let pieces = listed
            .iter()
            .filter(|part| !matches!(part.at("code").number(), 0x50 | 0x54));
        assert_eq!(pieces.count(), dump.at("place").number());
        assert_eq!(listed.len(), parts(&types, &data).len());
        // Of a long listing, some.
        let stride = listed.len() / 40 + 1;
        for part in listed.iter().step_by(stride) {
            agrees(&types, &data, part);
        }
    }
}

/// A refusal's path is this one, and its names are those along it.
fn falls_in(types: &Descriptor, answer: Answer, lent: &Lent, path: &[u32]) {
    let line = Refusal::of(answer, lent).json().line();
    let json = parsed::parse(line.trim_end()).expect("it is JSON");
    assert_eq!(numbers(json.at("path")), path, "{line}");
    let names = json.at("names").list();
    assert_eq!(names.len(), path.len());
    if let (Some(Json::Text(name)), Some(row)) = (names.last(), crate::path::row(types, path)) {
        let characters = types.name(row).expect("it has a name");
        assert!(
            name.chars()
                .eq(characters.iter().map(|byte| char::from(*byte)))
        );
    }
}

#[test]
fn refused_data_has_the_path_of_its_part() {
    for seed in 0..ROUNDS {
        let mut random = Random::new(seed);
        let bytes = grow::types(&mut random);
        let types = Descriptor::of(&bytes).expect("it is accepted");
        let data = grow::data(&mut random, &types);
        let mut little = vec![0; data.len()];
        assert_eq!(
            kerbcanopy::to_little_endian(&bytes, &data, &mut little).number,
            0
        );
        let parts = parts(&types, &data);
        for part in parts.iter().step_by(parts.len() / 12 + 1) {
            // The view of the undamaged data leads there.
            let view = kerbcanopy::view(&bytes, &data, &part.path);
            assert_eq!((view.answer.number, view.start), (0, part.bytes.start));
            for (order, form) in [(Order::Big, &data), (Order::Little, &little)] {
                for (damaged, number) in damage::of_part(&mut random, &types, form, order, part) {
                    let answer = match order {
                        Order::Big => kerbcanopy::check_data(&bytes, &damaged),
                        Order::Little => {
                            let mut room = vec![0; damaged.len()];
                            kerbcanopy::from_little_endian(&bytes, &damaged, &mut room)
                        }
                    };
                    assert_eq!((answer.number, answer.place as usize), (number, view.start));
                    let files = [input(&bytes), input(&damaged)];
                    let lent = Lent {
                        order,
                        ..Lent::data(&files[0], &files[1])
                    };
                    falls_in(&types, answer, &lent, &part.path);
                }
            }
        }
    }
}

#[test]
fn a_refused_descriptor_has_the_path_of_its_row() {
    for seed in 0..ROUNDS {
        let bytes = grow::types(&mut Random::new(seed));
        let types = Descriptor::of(&bytes).expect("it is accepted");
        let rows = types.rows.len();
        let answer = kerbcanopy::check_descriptor(&bytes).answer;
        let whole = layout::of(&bytes, answer).fields;
        for (row, path) in paths(&types.rows).iter().enumerate().step_by(rows / 6 + 1) {
            let start = usize::from(types.rows[row].start);
            for (damaged, number, place) in damage::of_row(&types, row) {
                let answer = kerbcanopy::check_descriptor(&damaged).answer;
                assert_eq!(
                    (answer.number, answer.place as usize),
                    (number, place),
                    "{damaged:02X?}"
                );
                let file = input(&damaged);
                falls_in(&types, answer, &Lent::descriptors(&file, None), path);
                let Layout { fields, facts, .. } = layout::of(&damaged, answer);
                tiles(&fields, damaged.len());
                // Where it starts is told where the place is not its start.
                let told = facts.contains(&format!("; its descriptor starts at {start}"));
                assert_eq!(told, place != start, "{facts}");
                // What was read before it is read as ever.
                let before = |field: &&Field| field.bytes.end <= start;
                assert!(whole.iter().filter(before).eq(fields.iter().filter(before)));
            }
        }
    }
}

#[test]
fn differences_are_the_library_s() {
    let mut unequal = 0;
    for seed in 0..10 * ROUNDS {
        let mut random = Random::new(seed);
        let types = grow::types(&mut random);
        let at = random.below(types.len());
        let mut twin = types.clone();
        twin[at] = random.byte();
        let (Some(one), Some(other)) = (Descriptor::of(&types), Descriptor::of(&twin)) else {
            continue;
        };
        let equal = kerbcanopy::compare(&types, &twin).equal;
        let found = difference::first(&one, &other);
        assert_eq!(found.is_none(), equal);
        let Some(found) = found else { continue };
        unequal += 1;
        // The field with the changed byte is the one that is told.
        let answer = kerbcanopy::check_descriptor(&types).answer;
        let fields = layout::of(&types, answer).fields;
        let field = fields
            .iter()
            .find(|field| field.bytes.contains(&at))
            .expect("they tile");
        if field.sort != Sort::Size {
            assert_eq!(
                (found.first.place, found.second.place),
                (field.bytes.start, field.bytes.start)
            );
        }
    }
    assert!(unequal > 1000, "{unequal}");
}

#[test]
fn singles_read_back() {
    for seed in 0..100 * ROUNDS {
        let bits = Random::new(seed).next() as u32;
        let read = kerbcanopy::read_value(&[0, 4, 0, 0x09], &bits.to_be_bytes(), &[]);
        let text = value::text(&read);
        match text.strip_prefix("NaN ") {
            Some(digits) => assert_eq!(u32::from_str_radix(digits, 16), Ok(bits)),
            None => assert_eq!(text.parse().map(f32::to_bits), Ok(bits)),
        }
    }
}

#[test]
fn halves_of_complex_numbers_are_read_as_the_library_reads_them() {
    for seed in 0..ROUNDS {
        let mut random = Random::new(seed);
        let bytes: Vec<u8> = (0..16).map(|_| random.byte()).collect();
        for (code, real, width) in [(0x0C, 0x09, 4), (0x0D, 0x0A, 8)] {
            let half = |from: usize| {
                let part = &bytes[from..from + width];
                value::text(&kerbcanopy::read_value(&[0, 4, 0, real], part, &[]))
            };
            let text = value::scalar(&[0, 4, 0, code as u8], code, &bytes[..2 * width]);
            assert_eq!(text, format!("{} and {} i", half(0), half(width)));
        }
    }
}
