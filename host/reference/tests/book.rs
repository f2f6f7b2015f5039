//! The blank book: whole books byte by byte, each refusal with its place and its
//! order, and the bounds on either side.

#[allow(dead_code, reason = "each test program uses a part of it")]
mod build;

use std::ops::Range;
use std::slice::from_ref;

use build::book::{Record, blank, book, short};
use build::{answer, array, cluster, enumeration, named, plain, text};
use reference::{Answer, Part, check_data, store_add, store_check, store_find, store_list};

/// Where a word of an entry stands in the book.
fn word(entry: usize, word: usize) -> Range<usize> {
    let start = 4 + 16 * entry + 4 * word;
    start..start + 4
}

/// The words of an entry.
const IDENTIFIER: usize = 0;
const START: usize = 1;
const DESCRIPTOR: usize = 2;
const DATA: usize = 3;

/// The book with another word in one of its entries.
fn with(book: &[u8], entry: usize, which: usize, number: u32) -> Vec<u8> {
    let mut book = book.to_vec();
    book[word(entry, which)].copy_from_slice(&number.to_be_bytes());
    book
}

/// Checks that each question refuses the book with 63 at this place, whatever else is
/// asked, and that nothing is written.
#[track_caller]
fn bad(book: &[u8], place: u32) {
    let refusal = answer(63, 4, place);
    assert_eq!(store_check(book), refusal);
    for identifier in [0, 9] {
        let part = store_find(book, identifier);
        assert_eq!((part.answer, part.start, part.length), (refusal, 0, 0));
    }
    for places in [0, 1, 9] {
        let mut list = vec![0xA5; places];
        assert_eq!(store_list(book, &mut list), refusal);
        assert_eq!(list, vec![0xA5; places]);
    }
    let doubled = short(9);
    add_refused(book, &doubled.descriptor, &doubled.data, refusal);
    add_refused(book, &[], &[0; 65537], refusal);
}

/// Checks that a record is refused and the book left as it is.
#[track_caller]
fn add_refused(book: &[u8], descriptor: &[u8], data: &[u8], refusal: Answer) {
    let mut after = book.to_vec();
    assert_eq!(store_add(&mut after, descriptor, data), refusal);
    assert!(after == book);
}

/// Checks that the book is accepted with exactly these records in it.
#[track_caller]
fn good(book: &[u8], records: &[Record]) {
    assert_eq!(store_check(book), answer(0, 0, 0));
    let identifiers: Vec<u32> = records.iter().map(|record| record.identifier).collect();
    let count = identifiers.len();
    for more in [0, 1, 5] {
        let mut list = vec![0xA5A5; count + more];
        assert_eq!(store_list(book, &mut list), answer(0, 0, count as u32));
        assert_eq!(list, [&identifiers[..], &vec![0xA5A5; more]].concat());
    }
    for places in (0..count).rev().take(3) {
        let mut list = vec![0xA5A5; places];
        assert_eq!(store_list(book, &mut list), answer(50, 4, count as u32));
        assert_eq!(list, vec![0xA5A5; places]);
    }
    for record in records {
        let part = store_find(book, record.identifier);
        assert_eq!(part.answer, answer(0, 0, 0));
        assert!(book[part.start..part.start + part.length] == record.body());
    }
}

/// Adds records one after the other and checks every byte each time.
#[track_caller]
fn add_all(capacity: u16, records: &[Record], room: usize) {
    let before = 4 + 16 * usize::from(capacity);
    let free: Vec<u8> = (0..room).map(|byte| byte as u8 ^ 0xA5).collect();
    let mut store = book(capacity, &[], &free);
    let mut used = 0;
    for count in 1..=records.len() {
        let record = &records[count - 1];
        let answered = store_add(&mut store, &record.descriptor, &record.data);
        assert_eq!(answered, answer(0, 0, 0));
        used += record.body().len();
        assert!(store == book(capacity, &records[..count], &free[used..]));
        assert_eq!(store.len(), before + room);
        good(&store, &records[..count]);
    }
}

/// A record with members of every kind on both sides of the identifier.
fn long(identifier: u32, note: &str) -> Record {
    let length = (note.len() as u32).to_be_bytes();
    let note = [&length, note.as_bytes()].concat();
    let numbers = [0, 0, 0, 2, 0, 1, 0, 2];
    let members = [
        named(text(), "note"),
        named(enumeration(0x15, 3), "state"),
        blank(),
        named(array(1, &plain(0x02)), "trace"),
    ];
    Record {
        identifier,
        descriptor: cluster(&members),
        data: [&note[..], &[2], &identifier.to_be_bytes(), &numbers].concat(),
    }
}

/// A book of capacity 2 with blank 9 in it, free bytes behind.
const NINE: [u8; 82] = *b"\
    \x00\x02\x00\x01\
    \x00\x00\x00\x09\x00\x00\x00\x24\x00\x00\x00\x10\x00\x00\x00\x04\
    \x00\x00\x00\x00\x00\x00\x00\x00\x00\x00\x00\x00\x00\x00\x00\x00\
    \x00\x10\x00\x50\x00\x01\x00\x0A\x00\x07\x05blank\x00\x00\x00\x09\
    free bytes, 26 of them....";

/// The same with blank 14, at 25 degrees, added to it.
const NINE_AND_FOURTEEN: [u8; 82] = *b"\
    \x00\x02\x00\x02\
    \x00\x00\x00\x09\x00\x00\x00\x24\x00\x00\x00\x10\x00\x00\x00\x04\
    \x00\x00\x00\x0E\x00\x00\x00\x38\x00\x00\x00\x14\x00\x00\x00\x05\
    \x00\x10\x00\x50\x00\x01\x00\x0A\x00\x07\x05blank\x00\x00\x00\x09\
    \x00\x14\x40\x50\x00\x02\x00\x04\x00\x05\x00\x0A\x20\x07\x05blank\
    \x19\x00\x00\x00\x0E.";

#[test]
fn a_book_byte_by_byte() {
    let part = |start, length| Part {
        answer: answer(0, 0, 0),
        start,
        length,
    };
    let mut store = NINE;
    assert_eq!(store_check(&store), answer(0, 0, 0));
    assert_eq!(store_find(&store, 9), part(36, 20));
    assert_eq!(store_find(&store, 14).answer, answer(64, 4, 0));
    let mut list = [7, 7, 7];
    assert_eq!(store_list(&store, &mut list), answer(0, 0, 1));
    assert_eq!(list, [9, 7, 7]);
    let descriptor = &NINE_AND_FOURTEEN[56..76];
    let answered = store_add(&mut store, descriptor, &[25, 0, 0, 0, 14]);
    assert_eq!(answered, answer(0, 0, 0));
    assert_eq!(store, NINE_AND_FOURTEEN);
    assert_eq!(store_check(&store), answer(0, 0, 0));
    assert_eq!(store_find(&store, 9), part(36, 20));
    assert_eq!(store_find(&store, 14), part(56, 25));
    assert_eq!(store_list(&store, &mut list[..2]), answer(0, 0, 2));
    assert_eq!(list, [9, 14, 7]);
    assert_eq!(store_list(&store, &mut list[..1]), answer(50, 4, 2));
    assert_eq!(list, [9, 14, 7]);
}

#[test]
fn blanks_nine_and_fourteen_at_one_temperature() {
    let degrees = |identifier: u32| Record {
        identifier,
        descriptor: cluster(&[named(plain(0x06), "t"), blank()]),
        data: [&[0, 25], &identifier.to_be_bytes()[..]].concat(),
    };
    add_all(2, &[degrees(9), degrees(14)], 64);
    let store = book(2, &[degrees(9)], &[0; 64]);
    let again = degrees(9);
    add_refused(&store, &again.descriptor, &again.data, answer(60, 4, 0));
}

#[test]
fn number_63_length() {
    for length in 0..4 {
        bad(&vec![0; length], 0);
        bad(&vec![0xFF; length], 0);
    }
    good(&[0; 4], &[]);
    let mut store = book(1, &[short(9)], &[]);
    store.resize(65536, 0xFF);
    good(&store, &[short(9)]);
    store.push(0xFF);
    bad(&store, 0);
    store.fill(0xFF);
    bad(&store, 0);
}

#[test]
fn capacity_0() {
    for free in [0, 1, 100, 65532] {
        let store = book(0, &[], &vec![0xFF; free]);
        good(&store, &[]);
        assert_eq!(store_find(&store, 0).answer, answer(64, 4, 0));
        let record = short(9);
        add_refused(&store, &record.descriptor, &record.data, answer(61, 4, 0));
    }
    bad(&[0, 0, 0, 1], 0);
    bad(&[0, 0, 0xFF, 0xFF, 0, 0], 0);
}

#[test]
fn number_63_contents() {
    for capacity in [1u16, 2, 255, 256, 4094, 4095] {
        let mut store = book(capacity, &[], &[]);
        good(&store, &[]);
        store.pop();
        bad(&store, u32::from(capacity));
        bad(&store[..4], u32::from(capacity));
    }
    for capacity in [4096u16, 4097, 0x8000, 0xFFFF] {
        let mut store = vec![0; 65536];
        store[..2].copy_from_slice(&capacity.to_be_bytes());
        bad(&store, u32::from(capacity));
        bad(&store[..4], u32::from(capacity));
    }
}

#[test]
fn number_63_count() {
    for count in [3u16, 4, 258, 0xFFFF] {
        let mut store = book(2, &[short(9), short(14)], &[0; 99]);
        store[2..4].copy_from_slice(&count.to_be_bytes());
        bad(&store, 2);
        // Before a bad entry, and together with contents that don't fit.
        bad(&with(&store, 0, START, 0), 2);
        bad(&store[..35], 2);
    }
}

/// A body starts where the one before ended, or the contents where there is none.
#[test]
fn number_63_start() {
    let records = [short(9), long(14, "fourteen"), short(20)];
    let store = book(4, &records, &[0; 200]);
    good(&store, &records);
    let mut start = 68;
    for (entry, record) in records.iter().enumerate() {
        let place = entry as u32;
        for other in [start - 1, start + 1, 0, 4, 68 - 20, 0xFFFF_FFFF] {
            bad(&with(&store, entry, START, other), place);
        }
        bad(&with(&store, entry, START, start + 0x1_0000), place);
        bad(&with(&store, entry, START, start | 0x8000_0000), place);
        start += record.body().len() as u32;
    }
}

/// A whole body in order, but a byte too late, too early or in the contents.
#[test]
fn number_63_gap_and_overlap() {
    let mut gap = book(2, &[short(9)], &[]);
    gap.insert(36, 0);
    bad(&with(&gap, 0, START, 37), 0);
    let mut gap = book(2, &[short(9), short(14)], &[]);
    gap.insert(56, 0);
    bad(&with(&gap, 1, START, 57), 1);
    // The same body twice, under the same identifier or under another.
    let twice = book(2, &[short(9), short(9)], &[]);
    let twice = with(&twice, 1, START, 36);
    bad(&twice, 1);
    bad(&with(&twice, 1, IDENTIFIER, 14), 1);
    // Bodies in the other order than their entries.
    let swapped = book(2, &[short(9), short(14)], &[]);
    let swapped = with(&with(&swapped, 0, IDENTIFIER, 14), 1, IDENTIFIER, 9);
    bad(&with(&with(&swapped, 0, START, 56), 1, START, 36), 0);
    // Before the contents' end: the unused entries would be the body.
    let mut inside = book(2, &[short(9)], &[]);
    inside.copy_within(36..56, 20);
    bad(&with(&inside, 0, START, 20), 0);
}

#[test]
fn number_63_end() {
    let records = [long(9, "nine"), long(14, "")];
    let mut store = book(2, &records, &[]);
    good(&store, &records);
    store.pop();
    bad(&store, 1);
    store.truncate(36 + records[0].body().len() - 1);
    bad(&store, 0);
    store.truncate(36);
    bad(&store, 0);
    // A length one over what is left, whichever of the two says so.
    let store = book(1, &[short(9)], &[]);
    bad(&with(&store, 0, DATA, 5), 0);
    bad(&with(&store, 0, DESCRIPTOR, 17), 0);
    bad(&with(&store, 0, DESCRIPTOR, 21), 0);
    bad(&with(&with(&store, 0, DESCRIPTOR, 20), 0, DATA, 0), 0);
}

/// Sums that come out right if they wrap.
#[test]
fn number_63_sums() {
    let records = [short(9), short(14)];
    let store = book(2, &records, &[0; 64]);
    for entry in 0..2 {
        for (descriptor, data) in [
            (0xFFFF_FFFF, 21),
            (16, 0xFFFF_FFFF),
            (0xFFFF_FFFF, 0xFFFF_FFFF),
            (0x8000_0010, 0x8000_0004),
            (0x1_0010, 4),
            (16, 0x1_0004),
            (16, 0x8000_0004),
        ] {
            let wrong = with(&store, entry, DESCRIPTOR, descriptor);
            bad(&with(&wrong, entry, DATA, data), entry as u32);
        }
    }
}

/// A record and its own refusal.
type Unreadable = (Vec<u8>, Vec<u8>, Answer);

/// Records whose descriptor or data is refused.
fn not_accepted() -> Vec<Unreadable> {
    let own = cluster(&[blank()]);
    let behind = [&own[..], &[0]].concat();
    let early = cluster(&[text(), blank()]);
    let late = cluster(&[blank(), text()]);
    let limited = cluster(&[blank(), enumeration(0x17, 9)]);
    let no_cluster = array(1, &plain(0x05));
    let cases: [(Vec<u8>, &[u8], Answer); 11] = [
        (vec![], &[0, 0, 0, 9], answer(2, 1, 0)),
        (vec![0; 4097], &[0, 0, 0, 9], answer(1, 1, 0)),
        (plain(0x22), &[0, 0, 0, 9], answer(5, 1, 3)),
        (behind, &[], answer(12, 1, 16)),
        (own.clone(), &[], answer(21, 3, 0)),
        (own.clone(), &[0, 0, 9], answer(21, 3, 0)),
        (own, &[0, 0, 0, 9, 0], answer(25, 3, 4)),
        (late, &[0, 0, 0, 9, 0, 0, 0, 9], answer(21, 3, 4)),
        (early, &[0x80, 0, 0, 0], answer(22, 3, 0)),
        (limited, &[0, 0, 0, 9, 0, 0, 0, 9], answer(23, 3, 4)),
        (no_cluster, &[0, 0, 0, 1], answer(21, 3, 4)),
    ];
    let owned = |(descriptor, data, refusal): (_, &[u8], _)| (descriptor, data.to_vec(), refusal);
    cases.into_iter().map(owned).collect()
}

/// 41: no cluster at the top, but one in it or a name that would do.
fn no_clusters() -> Vec<Vec<u8>> {
    let own = cluster(&[blank()]);
    let halves = cluster(&[0x03, 0x03, 0x07, 0x07].map(plain));
    let stamp = [&[0, 28, 0, 0x54, 0, 6], &halves[..]].concat();
    vec![
        blank(),
        plain(0x07),
        array(1, &blank()),
        array(1, &own),
        named(array(1, &own), "blank"),
        named(stamp, "blank"),
    ]
}

/// 42: the name stands deeper, at the top, as an item or within another name.
fn missing() -> Vec<Vec<u8>> {
    let item = [&[0, 12, 0, 0x15, 0, 1, 5], &b"blank"[..]].concat();
    let names = [
        "Blank",
        "blan",
        "blanks",
        "blank ",
        "\0blank",
        "",
        "knalb",
        "\x05blank",
    ];
    let named_like = names.map(|name| named(plain(0x07), name));
    let others = [
        plain(0x07),
        item.clone(),
        named(item, "odd"),
        cluster(&[blank()]),
        array(1, &blank()),
        cluster(&[plain(0x07), cluster(&[blank()])]),
    ];
    let top = named(cluster(&[plain(0x07)]), "blank");
    let members = [&named_like[..], &others].concat();
    let clusters = members.into_iter().map(|member| cluster(&[member]));
    clusters.chain([top]).collect()
}

/// 43: two or more, of whatever types.
fn doubled() -> Vec<Vec<u8>> {
    let other = named(plain(0x03), "blank");
    let inner = named(cluster(&[blank()]), "blank");
    vec![
        cluster(&[blank(), blank()]),
        cluster(&[blank(), blank(), blank()]),
        cluster(&[blank(), plain(0x07), blank()]),
        cluster(&[blank(), other.clone()]),
        cluster(&[other.clone(), blank()]),
        cluster(&[other.clone(), other]),
        cluster(&[inner.clone(), blank()]),
        cluster(&[blank(), inner]),
    ]
}

/// 44: the one member of that name is of another type.
fn other_types() -> Vec<Vec<u8>> {
    let types = [
        plain(0x03),
        plain(0x08),
        plain(0x09),
        enumeration(0x17, 10),
        text(),
        array(1, &plain(0x07)),
        cluster(&[plain(0x07)]),
        cluster(&[blank()]),
    ];
    let members = types.map(|of| named(of, "blank"));
    (members.into_iter())
        .map(|member| cluster(&[plain(0x07), member, plain(0x05)]))
        .collect()
}

/// Records that can't be read with the reader's shape.
fn unreadable() -> Vec<Unreadable> {
    let mut records = not_accepted();
    for (descriptors, refusal) in [
        (no_clusters(), answer(41, 1, 0)),
        (missing(), answer(42, 2, 0)),
        (doubled(), answer(43, 2, 0)),
        (other_types(), answer(44, 2, 0)),
    ] {
        for descriptor in descriptors {
            let data = zeros(&descriptor);
            records.push((descriptor, data, refusal));
        }
    }
    records
}

/// As many zeros as are data of this type.
fn zeros(descriptor: &[u8]) -> Vec<u8> {
    let mut zeros = (1..).map(|length| vec![0; length]);
    let found = zeros.find(|zeros| check_data(descriptor, zeros).number == 0);
    found.unwrap()
}

#[test]
fn number_63_record() {
    for (descriptor, data, _) in unreadable() {
        for identifier in [0, 9] {
            let (descriptor, data) = (descriptor.clone(), data.clone());
            let record = Record {
                identifier,
                descriptor,
                data,
            };
            bad(&book(1, from_ref(&record), &[0; 64]), 0);
            let records = [short(8), record.clone(), short(10)];
            bad(&book(5, &records, &[]), 1);
            let records = [long(8, ""), long(7, "seven"), record];
            bad(&book(3, &records, &[0xFF]), 2);
        }
    }
}

#[test]
fn the_records_own_refusals() {
    let full = book(1, &[short(9)], &[]);
    for (descriptor, data, refusal) in unreadable() {
        for store in [&NINE[..], &full, &[0; 4]] {
            add_refused(store, &descriptor, &data, refusal);
        }
    }
    let record = short(9);
    add_refused(&full, &record.descriptor, &[0; 65537], answer(20, 3, 0));
    add_refused(&full, &plain(0x07), &[0; 5], answer(25, 3, 4));
}

/// The descriptor is that of the record before, or nearly, and the data isn't right.
#[test]
fn number_63_after_a_record_of_the_same_writer() {
    for writer in [short, |identifier| long(identifier, "note")] {
        let records = [writer(9), writer(14), writer(20), writer(21)];
        good(&book(4, &records, &[]), &records);
        for change in 0..4 {
            let mut records = records.clone();
            let changed = &mut records[2];
            match change {
                0 => changed.data.push(0),
                1 => changed.data.truncate(changed.data.len() - 1),
                2 => changed.data.clear(),
                // The identifier's member under another code.
                _ => {
                    let code = changed.descriptor.windows(7);
                    let mut code = code
                        .enumerate()
                        .filter(|(_, bytes)| bytes[1..] == *b"\x05blank");
                    let place = code.next().unwrap().0;
                    changed.descriptor[place] = 0x03;
                }
            }
            bad(&book(4, &records, &[]), 2);
        }
        // A reserved byte makes no difference.
        let mut records = records;
        records[1].descriptor[2] = 0x40;
        records[3].descriptor[8] = 0xFF;
        good(&book(4, &records, &[]), &records);
    }
}

#[test]
fn number_63_identifier() {
    let records = [short(9), long(14, "fourteen"), short(0)];
    let store = book(5, &records, &[0; 9]);
    good(&store, &records);
    for (entry, record) in records.iter().enumerate() {
        for bit in 0..32 {
            let other = record.identifier ^ 1 << bit;
            bad(&with(&store, entry, IDENTIFIER, other), entry as u32);
        }
    }
}

/// "Stands in one entry only; the second is bad."
#[test]
fn number_63_doubled() {
    for identifier in [0, 9, 0xFFFF_FFFF] {
        let [once, twice] = [short(identifier), long(identifier, "again")];
        bad(&book(2, &[once.clone(), once.clone()], &[]), 1);
        bad(&book(2, &[once.clone(), twice.clone()], &[]), 1);
        let others = [short(1), short(2), short(3)];
        let records = [
            &others[..1],
            from_ref(&once),
            &others[1..],
            from_ref(&twice),
        ]
        .concat();
        bad(&book(6, &records, &[]), 4);
        good(&book(6, &records[..4], &[0; 99]), &records[..4]);
        let thrice = [&records[..], &[once]].concat();
        bad(&book(6, &thrice, &[]), 4);
    }
}

#[test]
fn number_63_unused() {
    let records = [short(9), short(14)];
    let store = book(5, &records, &[0xFF; 30]);
    good(&store, &records);
    for place in 4 + 16 * 2..4 + 16 * 5 {
        for byte in [1, 0x80, 0xFF] {
            let mut store = store.clone();
            store[place] = byte;
            bad(&store, (place as u32 - 4) / 16);
            // The first of two.
            store[4 + 16 * 5 - 1] = 1;
            bad(&store, (place as u32 - 4) / 16);
        }
    }
    // A whole entry with its body, but not counted.
    let mut store = book(2, &records, &[]);
    store[3] = 1;
    bad(&store, 1);
    store[3] = 0;
    bad(&store, 0);
    // Counted, but not there.
    let mut store = book(2, &[short(9)], &[0; 99]);
    store[3] = 2;
    bad(&store, 1);
}

#[test]
fn the_first_bad_entry_comes_first() {
    let records = [short(9), short(14), short(20), short(9)];
    let store = book(6, &records, &[]);
    bad(&store, 3);
    let mut faults = store.clone();
    faults[word(4, DATA)].fill(1);
    bad(&faults, 3);
    let faults = with(&faults, 2, IDENTIFIER, 21);
    bad(&faults, 2);
    let faults = with(&faults, 1, START, 0);
    bad(&faults, 1);
    let mut faults = with(&faults, 0, DESCRIPTOR, 0xFFFF_FFFF);
    bad(&faults, 0);
    faults[3] = 7;
    bad(&faults, 6);
    faults[0] = 0xFF;
    bad(&faults, 0xFF06);
    bad(&faults[..3], 0);
    // Both in one entry: the later one alone is refused at the same place.
    bad(&with(&store, 3, START, 0), 3);
}

#[test]
fn number_60_already_there() {
    let records = [short(9), long(14, "fourteen"), short(0)];
    for (capacity, free) in [(3, 0), (4, 0), (3, 200), (4, 200)] {
        let store = book(capacity, &records, &vec![0; free]);
        for (entry, record) in records.iter().enumerate() {
            let refusal = answer(60, 4, entry as u32);
            for again in [short(record.identifier), long(record.identifier, "again")] {
                add_refused(&store, &again.descriptor, &again.data, refusal);
            }
        }
    }
}

#[test]
fn number_61_no_free_entry() {
    for (capacity, free) in [(0, 0), (0, 99), (1, 0), (1, 99), (2, 19), (2, 20)] {
        let records: Vec<Record> = (1..=u32::from(capacity)).map(short).collect();
        let store = book(capacity, &records, &vec![0; free]);
        let record = short(9);
        add_refused(&store, &record.descriptor, &record.data, answer(61, 4, 0));
    }
}

#[test]
fn number_62_no_room() {
    for (record, records) in [
        (short(9), vec![]),
        (short(9), vec![long(14, "fourteen")]),
        (long(9, "nine"), vec![short(14), long(20, "")]),
    ] {
        let length = record.body().len();
        for room in [0, 1, length / 2, length - 1] {
            let store = book(9, &records, &vec![0xA5; room]);
            let refusal = answer(62, 4, length as u32);
            add_refused(&store, &record.descriptor, &record.data, refusal);
        }
        let mut store = book(9, &records, &vec![0xA5; length]);
        let answered = store_add(&mut store, &record.descriptor, &record.data);
        assert_eq!(answered, answer(0, 0, 0));
        let all = [&records[..], &[record]].concat();
        assert!(store == book(9, &all, &[]));
        good(&store, &all);
    }
}

/// The longest data, which no book has room for, and the longest that one has.
#[test]
fn number_62_long_records() {
    let bytes = array(1, &plain(0x05));
    let descriptor = cluster(&[blank(), bytes]);
    let data = |length: usize| {
        let size = (length as u32 - 8).to_be_bytes();
        let mut data = [&[0, 0, 0, 9], &size[..]].concat();
        data.resize(length, 0xA5);
        data
    };
    let store = book(1, &[], &vec![0; 65516]);
    let refusal = answer(62, 4, 65536 + 30);
    add_refused(&store, &descriptor, &data(65536), refusal);
    let most = 65536 - 20 - descriptor.len();
    let refusal = answer(62, 4, 65517);
    add_refused(&store, &descriptor, &data(most + 1), refusal);
    let mut filled = store.clone();
    assert_eq!(
        store_add(&mut filled, &descriptor, &data(most)),
        answer(0, 0, 0)
    );
    let data = data(most);
    let identifier = 9;
    let record = Record {
        identifier,
        descriptor,
        data,
    };
    assert!(filled == book(1, from_ref(&record), &[]));
    good(&filled, &[record]);
}

/// 63, the record's own, 60, 61, 62: each where all that come after it would do too.
#[test]
fn refusals_in_their_order() {
    let full = book(1, &[short(9)], &[]);
    let mut ill = full.clone();
    ill[3] = 2;
    let again = long(9, "nine");
    let cut = &again.data[..again.data.len() - 1];
    add_refused(&ill, &again.descriptor, cut, answer(63, 4, 1));
    add_refused(&full, &again.descriptor, cut, answer(21, 3, 19));
    let twice = cluster(&[blank(), blank(), text()]);
    let data = [0, 0, 0, 9, 0, 0, 0, 9, 0, 0, 0, 0];
    add_refused(&ill, &twice, &data, answer(63, 4, 1));
    add_refused(&full, &twice, &data[..8], answer(21, 3, 8));
    add_refused(&full, &twice, &data, answer(43, 2, 0));
    add_refused(&full, &again.descriptor, &again.data, answer(60, 4, 0));
    let other = long(14, "fourteen");
    let length = other.body().len() as u32;
    add_refused(&full, &other.descriptor, &other.data, answer(61, 4, 0));
    let free = book(2, &[short(9)], &[]);
    add_refused(&free, &again.descriptor, &again.data, answer(60, 4, 0));
    add_refused(&free, &other.descriptor, &other.data, answer(62, 4, length));
}

#[test]
fn number_64_no_match() {
    let records = [short(9), short(14)];
    // An unused entry is zero, but no blank 0.
    for identifier in [0, 1, 8, 10, 13, 36, 0x0900_0000, 0xFFFF_FFFF] {
        for store in [
            &book(4, &records, &[0; 64])[..],
            &book(2, &records, &[]),
            &[0; 4],
        ] {
            let part = store_find(store, identifier);
            let none = answer(64, 4, 0);
            assert_eq!((part.answer, part.start, part.length), (none, 0, 0));
        }
    }
    let records = [short(9), short(0)];
    good(&book(4, &records, &[0; 64]), &records);
}

#[test]
fn records_added_as_lent() {
    let mut reserved = long(20, "twenty");
    reserved.descriptor[2] = 0xFF;
    reserved.descriptor[8] = 0x40;
    let named = Record {
        descriptor: named(short(21).descriptor, "blank"),
        ..short(21)
    };
    let records = [
        short(9),
        short(14),
        long(15, ""),
        long(16, "sixteen"),
        reserved,
        long(17, "seventeen"),
        named,
        short(0),
        short(0xFFFF_FFFF),
    ];
    let length: usize = records.iter().map(|record| record.body().len()).sum();
    for more in [0, 1, 300] {
        add_all(9, &records, length + more);
        add_all(30, &records, length + more);
    }
}

/// A count that needs both its bytes.
#[test]
fn the_256th_record() {
    let records: Vec<Record> = (1..=258).map(short).collect();
    let mut store = book(300, &records[..254], &[0xA5; 99]);
    for count in 255..=258 {
        let record = &records[count - 1];
        let answered = store_add(&mut store, &record.descriptor, &record.data);
        assert_eq!(answered, answer(0, 0, 0));
        let free = vec![0xA5; 99 - 20 * (count - 254)];
        assert!(store == book(300, &records[..count], &free));
        good(&store, &records[..count]);
    }
}

/// The identifier among others, wherever it stands and whatever is beside it.
#[test]
fn the_identifier_is_found_by_its_name() {
    let others = [
        (plain(0x07), vec![0, 0, 0, 1]),
        (named(plain(0x07), "pulses"), vec![0, 0, 0, 2]),
        (named(plain(0x0E), "z"), vec![3; 32]),
        (named(text(), "note"), vec![0, 0, 0, 1, b'x']),
        (
            named(cluster(&[blank(), text()]), "inner"),
            vec![0, 0, 0, 4, 0, 0, 0, 0],
        ),
        (
            named(array(2, &blank()), "trace"),
            vec![0, 0, 0, 1, 0, 0, 0, 1, 0, 0, 0, 5],
        ),
        (
            named(cluster(&[named(plain(0x21), "blank")]), "lamp"),
            vec![0xFF],
        ),
    ];
    let mut records = vec![];
    for place in 0..=others.len() {
        let identifier = 100 + place as u32;
        let own = (blank(), identifier.to_be_bytes().to_vec());
        let mut members = others.to_vec();
        members.insert(place, own);
        let descriptors: Vec<Vec<u8>> = members.iter().map(|member| member.0.clone()).collect();
        records.push(Record {
            identifier,
            descriptor: cluster(&descriptors),
            data: members.into_iter().flat_map(|member| member.1).collect(),
        });
    }
    good(&book(8, &records, &[0; 7]), &records);
    let length: usize = records.iter().map(|record| record.body().len()).sum();
    add_all(8, &records, length);
}

/// As many records as fit: 36 bytes each.
#[test]
fn a_full_book() {
    let records: Vec<Record> = (0..1820).map(|blank| short(blank * 0x9_0001)).collect();
    let mut store = book(1820, &records, &[0xFF; 12]);
    assert_eq!(store.len(), 65536);
    good(&store, &records);
    let other = short(1);
    add_refused(&store, &other.descriptor, &other.data, answer(61, 4, 0));
    let again = short(1819 * 0x9_0001);
    add_refused(&store, &again.descriptor, &again.data, answer(60, 4, 1819));
    let mut doubled = records.clone();
    doubled[1819] = doubled[3].clone();
    bad(&book(1820, &doubled, &[]), 1819);
    store = book(1821, &records[..1819], &[0xFF; 16]);
    add_refused(&store, &other.descriptor, &other.data, answer(62, 4, 20));
}
