//! What the command reads of a book, and what it says is wrong with one, held against the
//! library, on books at random.

use std::ffi::OsString;

use kerbcanopy::{Answer, store_add, store_check, store_find, store_list};

use super::answers::Question;
use super::grow::{self, Random};
use super::{ROUNDS, asked, damage, input, parsed};
use crate::ask;
use crate::book::fault::{Fault, Wrong};
use crate::book::{Book, READER, blank, entry_at};
use crate::descriptor::Descriptor;
use crate::outcome::Status;
use crate::refusal::{Lent, Refusal};

/// A record with this identifier: the one member "blank", and perhaps others.
fn record(random: &mut Random, identifier: u32) -> (Vec<u8>, Vec<u8>) {
    loop {
        let own = (READER[6..].to_vec(), identifier.to_be_bytes().to_vec());
        let mut members = vec![own];
        for _ in 0..random.below(3) {
            let types = grow::types(random);
            let accepted = Descriptor::of(&types).expect("it is accepted");
            let data = grow::data(random, &accepted);
            members.insert(random.below(members.len() + 1), (types, data));
        }
        let (types, data): (Vec<_>, Vec<_>) = members.into_iter().unzip();
        let mut descriptor = vec![0, 0, random.byte(), 0x50, 0, types.len() as u8];
        descriptor.extend(types.concat());
        let size = (descriptor.len() as u16).to_be_bytes();
        descriptor[..2].copy_from_slice(&size);
        let data = data.concat();
        // One more around it may be a level or a type too many.
        if kerbcanopy::read_record(&descriptor, READER, &data, &mut [0; 4]).number == 0 {
            return (descriptor, data);
        }
    }
}

/// A book with up to so many records, put there by the library.
fn grown(random: &mut Random, most: usize) -> Vec<u8> {
    let capacity = 1 + random.below(most);
    let length = entry_at(capacity) + random.below(3000);
    let mut book = blank(capacity, length).expect("it is a book");
    for _ in 0..random.below(capacity + 2) {
        let identifier = random.below(40) as u32;
        let (descriptor, data) = record(random, identifier);
        let before = book.clone();
        let answer = store_add(&mut book, &descriptor, &data);
        added(&before, &book, answer, &descriptor, &data);
    }
    book
}

/// An answer to an addition against what the command reads of the book.
fn added(before: &[u8], after: &[u8], answer: Answer, descriptor: &[u8], data: &[u8]) {
    let book = Book::of(before).expect("it has a head");
    let length = descriptor.len() + data.len();
    match answer.number {
        0 => {
            let new = Book::of(after).expect("it has a head");
            let entry = new.entry(book.count).expect("it is there");
            assert_eq!((new.count, entry.start), (book.count + 1, book.used()));
            assert_eq!(
                (entry.descriptor, entry.data),
                (descriptor.len(), data.len())
            );
            assert_eq!(new.used(), book.used() + length);
            return;
        }
        60 => assert!((answer.place as usize) < book.count),
        61 => assert_eq!(book.count, book.capacity),
        62 => assert!(length == answer.place as usize && length > book.free()),
        number => panic!("refused with {number}"),
    }
    assert_eq!(before, after);
}

#[test]
fn a_book_is_read_as_the_library_reads_it() {
    for seed in 0..ROUNDS / 5 {
        let mut random = Random::new(seed);
        let bytes = grown(&mut random, 8);
        assert_eq!(store_check(&bytes).number, 0);
        let book = Book::of(&bytes).expect("it has a head");
        let mut identifiers = vec![0; book.count];
        let answer = store_list(&bytes, &mut identifiers);
        assert_eq!((answer.number, answer.place as usize), (0, book.count));
        assert!(book.entries().map(|entry| entry.identifier).eq(identifiers));
        for entry in book.entries() {
            let part = store_find(&bytes, entry.identifier);
            assert_eq!(part.answer.number, 0);
            assert_eq!(
                part.start..part.start + part.length,
                entry.start..entry.end()
            );
            let (descriptor, data) = bytes[entry.start..entry.end()].split_at(entry.descriptor);
            assert_eq!(kerbcanopy::check_data(descriptor, data).number, 0);
        }
    }
}

/// A word of the book set to another number.
fn set(bytes: &mut [u8], at: usize, number: usize) {
    bytes[at..at + 4].copy_from_slice(&(number as u32).to_be_bytes());
}

/// The book without what is said to be wrong with it; none where that can't be mended
/// by a number of its contents.
fn mended(bytes: &[u8], fault: Fault) -> Option<Vec<u8>> {
    let mut bytes = bytes.to_vec();
    let (entry, wrong) = match fault {
        Fault::Length(_) | Fault::Contents { .. } => return None,
        Fault::Count { capacity, .. } => {
            bytes[2..4].copy_from_slice(&(capacity as u16).to_be_bytes());
            return Some(bytes);
        }
        Fault::Entry(entry, wrong) => (entry, wrong),
    };
    match wrong {
        Wrong::Record { .. } => return None,
        Wrong::Start { expected, .. } => set(&mut bytes, entry_at(entry) + 4, expected),
        Wrong::End { end, .. } if end > kerbcanopy::BOOK_LIMIT => return None,
        Wrong::End { end, .. } => bytes.resize(end, 0),
        Wrong::Identifier { record, .. } => set(&mut bytes, entry_at(entry), record as usize),
        Wrong::Twice { .. } => {
            // Its record has to say the same: the data of an identifier alone is that.
            let book = Book::of(&bytes)?;
            let found = book.entry(entry).filter(|found| found.data == 4)?;
            set(&mut bytes, entry_at(entry), 1_000_000);
            set(&mut bytes, found.end() - 4, 1_000_000);
        }
        Wrong::Unused { .. } => bytes[entry_at(entry)..entry_at(entry + 1)].fill(0),
    }
    Some(bytes)
}

/// How far the judging of a book got: by entry, then by rule.
fn progress(fault: Fault) -> (usize, usize) {
    let Fault::Entry(entry, wrong) = fault else {
        return (0, 0);
    };
    let rule = match wrong {
        Wrong::Start { .. } => 1,
        Wrong::End { .. } => 2,
        Wrong::Record { .. } => 3,
        Wrong::Identifier { .. } => 4,
        Wrong::Twice { .. } => 5,
        Wrong::Unused { .. } => 6,
    };
    (entry, rule)
}

/// The fault that is told of a refused book: it stands in what the library points at, and
/// without it the library gets further.
fn is_wrong(bytes: &[u8], answer: Answer) -> Fault {
    assert_eq!((answer.number, answer.input), (63, 4));
    let place = answer.place as usize;
    let fault = Fault::of(bytes, place).expect("it is told");
    let at = fault.byte();
    match fault {
        Fault::Length(_) => assert_eq!(place, 0),
        Fault::Contents { capacity, .. } | Fault::Count { capacity, .. } => {
            assert_eq!(place, capacity);
        }
        Fault::Entry(entry, Wrong::Record { .. }) => {
            let found = Book::of(bytes).and_then(|book| book.entry(entry));
            let found = found.expect("it is there");
            assert!(entry == place && (found.start..=found.end()).contains(&at));
        }
        Fault::Entry(entry, _) => {
            assert_eq!(entry, place, "{fault:?}");
            let contents = entry_at(place)..entry_at(place + 1);
            assert!(contents.contains(&at), "{fault:?}");
        }
    }
    if let Some(mended) = mended(bytes, fault) {
        let answer = store_check(&mended);
        if answer.number != 0 {
            let next = Fault::of(&mended, answer.place as usize).expect("it is told");
            assert!(
                progress(next) >= progress(fault),
                "{fault:?}, then {next:?}"
            );
            assert_ne!(next, fault);
        }
    }
    fault
}

/// Every question about a book answers as the library's check does, and a find in an
/// accepted one with 0 or 64.
fn answers(bytes: &[u8], answer: Answer) {
    let questions: [(Question, &[&str]); 3] = [
        (ask::book_check, &[]),
        (ask::book_list, &[]),
        (ask::book_find, &["9"]),
    ];
    for (question, words) in questions {
        let words: Vec<OsString> = words.iter().map(OsString::from).collect();
        let (status, json) = asked(question, &[bytes], &words);
        let number = json.at("number").number() as u32;
        assert_eq!(status == Status::Accepted, number == 0);
        match answer.number {
            0 => assert!(number == 0 || (number == 64 && !words.is_empty())),
            _ => {
                let place = json.at("place").number() as u32;
                assert_eq!((number, place), (answer.number, answer.place));
            }
        }
    }
}

/// The refusal's line says what is wrong, and its JSON the same.
fn is_told(bytes: &[u8], answer: Answer, fault: Fault) {
    let file = input(bytes);
    let refusal = Refusal::of(answer, &Lent::book(&file, 0));
    assert!(
        refusal.line().contains(&fault.words()),
        "{}",
        refusal.line()
    );
    let json = parsed::parse(refusal.json().line().trim_end()).expect("it is JSON");
    assert!(json.at("facts").text().starts_with(&fault.words()));
    assert!(json.at("there").text().contains('['));
}

#[test]
fn what_is_wrong_with_a_damaged_book_is_told() {
    let mut met = [0; 7];
    for seed in 0..4 * ROUNDS {
        let mut random = Random::new(seed);
        let mut bytes = grown(&mut random, 4);
        for _ in 0..1 + random.below(2) {
            // Mostly in the contents: there is more in the bodies.
            let contents = entry_at(4).min(bytes.len());
            let (front, rest) = bytes.split_at(contents);
            bytes = match random.below(3) {
                0 => damage::anywhere(&mut random, &bytes),
                _ => [&damage::anywhere(&mut random, front), rest].concat(),
            };
            if bytes.is_empty() {
                break;
            }
        }
        let answer = store_check(&bytes);
        answers(&bytes, answer);
        if answer.number != 0 {
            let fault = is_wrong(&bytes, answer);
            is_told(&bytes, answer, fault);
            met[progress(fault).1] += 1;
        }
    }
    // The same identifier twice is for the next test: no single byte does that.
    assert!(
        [0, 1, 2, 3, 4, 6].iter().all(|rule| met[*rule] > 20),
        "{met:?}"
    );
}

#[test]
fn the_same_identifier_twice_is_told() {
    for seed in 0..ROUNDS / 5 {
        let mut random = Random::new(seed);
        let count = 2 + random.below(6);
        let mut bytes = blank(count, entry_at(count) + 20 * count).expect("it is a book");
        for identifier in 0..count as u32 {
            assert_eq!(
                store_add(&mut bytes, READER, &identifier.to_be_bytes()).number,
                0
            );
        }
        let first = random.below(count - 1);
        let second = first + 1 + random.below(count - 1 - first);
        let book = Book::of(&bytes).expect("it has a head");
        let end = book.entry(second).expect("it is there").end();
        set(&mut bytes, entry_at(second), first);
        set(&mut bytes, end - 4, first);
        let answer = store_check(&bytes);
        let fault = is_wrong(&bytes, answer);
        is_told(&bytes, answer, fault);
        let expected = format!("entries {first} and {second} both have identifier {first}");
        assert_eq!(fault.words(), expected);
    }
}
