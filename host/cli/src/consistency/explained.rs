//! Explanations held against the bytes that they explain.

use super::grow::{self, Random};
use super::{ROUNDS, damage, input};
use crate::descriptor::Descriptor;
use crate::explain::{Section, page, text};
use crate::layout::{Field, Sort};

/// Every field starts where the one before ended; together they are all the bytes.
pub fn tiles(fields: &[Field], length: usize) {
    let mut end = 0;
    for field in fields {
        assert_eq!(field.bytes.start, end, "{fields:#?}");
        assert!(field.bytes.end >= end);
        assert!(
            field.sort == Sort::Heading || field.sort == Sort::Fault || !field.bytes.is_empty()
        );
        end = field.bytes.end;
    }
    assert_eq!(end, length, "{fields:#?}");
}

/// A section's fields are its bytes, and its place is marked, in every form.
fn explained(section: &Section) {
    let length = section.file.bytes.len();
    tiles(&section.fields, length);
    if let Some(place) = section.place().filter(|place| *place < length) {
        let starts = |field: &Field| field.bytes.start == place && !field.bytes.is_empty();
        assert!(section.fields.iter().any(starts), "{place}");
    }
    let sections = std::slice::from_ref(section);
    assert_eq!(
        marked(&page::of(sections)),
        section.place().into_iter().collect::<Vec<_>>()
    );
    assert_eq!(shown(&text::of(sections, true, false)), section.file.bytes);
}

/// The places of the bytes that a page marks.
fn marked(page: &str) -> Vec<usize> {
    let tags = page.split("<b class=\"").skip(1);
    let tags = tags.map(|tag| tag.split('>').next().unwrap_or_default());
    let marked = tags.filter(|tag| tag.contains("place\" "));
    let place = |tag: &str| {
        tag.split("data-at=\"")
            .nth(1)?
            .trim_end_matches('"')
            .parse()
            .ok()
    };
    marked
        .map(|tag| place(tag).expect("it has a place"))
        .collect()
}

/// The bytes that a text shows.
fn shown(text: &str) -> Vec<u8> {
    let mut bytes = Vec::new();
    for line in text.lines().skip(1) {
        let (place, rest) = line.split_at(11);
        if place.trim().is_empty() || rest.contains(" [end] ") {
            continue;
        }
        assert_eq!(place, format!("{0:>5}  {0:04X}", bytes.len()));
        let column = rest.get(..28).unwrap_or(rest).replace(['[', ']'], " ");
        let digits = column.split_whitespace();
        bytes.extend(digits.map(|byte| u8::from_str_radix(byte, 16).expect("it is a byte")));
    }
    bytes
}

#[test]
fn explanations_are_all_the_bytes() {
    for seed in 0..ROUNDS / 3 {
        let mut random = Random::new(seed);
        let types = grow::types(&mut random);
        let accepted = Descriptor::of(&types).expect("it is accepted");
        let data = grow::data(&mut random, &accepted);
        let whole = input(&types);
        explained(&Section::descriptor(&whole));
        explained(&Section::data(&whole, &input(&data), seed % 2 == 0));
        for _ in 0..4 {
            let damaged = input(&damage::anywhere(&mut random, &types));
            explained(&Section::descriptor(&damaged));
            let damaged = input(&damage::anywhere(&mut random, &data));
            explained(&Section::data(&whole, &damaged, seed % 2 == 0));
        }
    }
}

#[test]
fn what_was_read_before_a_refusal_is_explained_as_ever() {
    for seed in 0..ROUNDS / 3 {
        let mut random = Random::new(seed);
        let types = grow::types(&mut random);
        let accepted = Descriptor::of(&types).expect("it is accepted");
        let data = grow::data(&mut random, &accepted);
        let cut = random.below(data.len());
        let files = [&types, &data, &data[..cut].to_vec()].map(|bytes| input(bytes));
        let whole = Section::data(&files[0], &files[1], true).fields;
        let refused = Section::data(&files[0], &files[2], true);
        let place = refused.place().expect("data that is cut is refused");
        let before = |field: &&Field| field.bytes.end <= place && !field.bytes.is_empty();
        let read: Vec<_> = refused.fields.iter().filter(before).collect();
        assert_eq!(read, whole.iter().filter(before).collect::<Vec<_>>());
    }
}
