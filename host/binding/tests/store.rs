//! Blank books counted by hand, asked of the library in both forms of its entries.

use kerbcanopy::accepted::{Book, Descriptor, Refusal};
use kerbcanopy::{Answer, Part, lent, store_add, store_check, store_find, store_list};

/// One unsigned "blank", as the reader's shape of document 02 has it.
const SHORT: &[u8] = b"\x00\x10\x00\x50\x00\x01\x00\x0A\x00\x07\x05blank";
/// A temperature before it.
const RIG: &[u8] = b"\x00\x16\x00\x50\x00\x02\x00\x06\x00\x02\x01t\x00\x0A\x00\x07\x05blank";
/// The same with a "blank" that is signed, that is missing, and that is there twice.
const SIGNED: &[u8] = b"\x00\x10\x00\x50\x00\x01\x00\x0A\x00\x03\x05blank";
const MISSING: &[u8] = b"\x00\x10\x00\x50\x00\x01\x00\x0A\x00\x07\x05blanc";
const TWICE: &[u8] = b"\x00\x1A\x00\x50\x00\x02\x00\x0A\x00\x07\x05blank\x00\x0A\x00\x07\x05blank";

/// The head and two entries.
const CONTENTS: usize = 4 + 2 * 16;
/// The body of a short record, and of one with a temperature.
const SHORT_BODY: usize = 16 + 4;
const RIG_BODY: usize = 22 + 6;

fn answer(number: u32, input: u32, place: u32) -> Answer {
    Answer {
        number,
        input,
        place,
    }
}

fn given(place: u32) -> Answer {
    answer(0, 0, place)
}

fn request(number: u32, place: u32) -> Answer {
    answer(number, 4, place)
}

/// A book of this capacity and length with no entry in use; what is free is painted.
fn empty(capacity: u8, length: usize) -> Vec<u8> {
    let mut book = vec![0xA5; length];
    let contents = 4 + 16 * usize::from(capacity);
    book[..contents].fill(0);
    book[1] = capacity;
    book
}

/// The book in which blank 9 has a temperature and blank 14 stands behind it, in so
/// many bytes.
fn two(length: usize) -> Vec<u8> {
    let entry = |identifier: u8, start: usize, descriptor: &[u8], data: u8| {
        let words = [identifier, start as u8, descriptor.len() as u8, data];
        words.map(|word| [0, 0, 0, word]).concat()
    };
    let mut book = [
        &[0, 2, 0, 2][..],
        &entry(9, CONTENTS, RIG, 6),
        &entry(14, CONTENTS + RIG_BODY, SHORT, 4),
        RIG,
        &[0, 25, 0, 0, 0, 9],
        SHORT,
        &[0, 0, 0, 14],
    ]
    .concat();
    book.resize(length, 0xA5);
    book
}

/// The bytes that the two records take.
const TWO: usize = CONTENTS + RIG_BODY + SHORT_BODY;

/// Adds in both forms, which leave the same.
fn add(book: &mut [u8], descriptor: &[u8], data: &[u8]) -> Answer {
    let (mut other, mut numbers) = (book.to_vec(), [7; 3]);
    lent::store_add(&mut other, descriptor, data, &mut numbers);
    let answer = store_add(book, descriptor, data);
    assert_eq!(numbers, [answer.number, answer.input, answer.place]);
    assert_eq!(other, book);
    answer
}

fn check(book: &[u8]) -> Answer {
    let mut numbers = [7; 3];
    lent::store_check(book, &mut numbers);
    let answer = store_check(book);
    assert_eq!(numbers, [answer.number, answer.input, answer.place]);
    answer
}

fn find(book: &[u8], identifier: u32) -> (Answer, usize, usize) {
    let mut left = ([7; 3], 7, 7);
    lent::store_find(book, identifier, &mut left.0, &mut left.1, &mut left.2);
    let Part {
        answer,
        start,
        length,
    } = store_find(book, identifier);
    let numbers = [answer.number, answer.input, answer.place];
    assert_eq!(left, (numbers, start as u64, length as u64));
    (answer, start, length)
}

/// Lists into so many places, and gives what stands in them.
fn list(book: &[u8], places: usize) -> (Answer, Vec<u32>) {
    let (mut numbers, mut other) = ([7; 3], vec![7; places]);
    lent::store_list(book, &mut other, &mut numbers);
    let mut identifiers = vec![7; places];
    let answer = store_list(book, &mut identifiers);
    assert_eq!(numbers, [answer.number, answer.input, answer.place]);
    assert_eq!(other, identifiers);
    (answer, identifiers)
}

#[test]
fn records_are_added_one_behind_the_other() {
    for length in [TWO, TWO + 1, TWO + 40] {
        let mut book = empty(2, length);
        assert_eq!(add(&mut book, RIG, &[0, 25, 0, 0, 0, 9]), given(0));
        assert_eq!(add(&mut book, SHORT, &[0, 0, 0, 14]), given(0));
        assert_eq!(book, two(length));
    }
}

#[test]
fn a_book_is_asked() {
    let book = two(TWO + 3);
    assert_eq!(check(&book), given(0));
    assert_eq!(find(&book, 9), (given(0), CONTENTS, RIG_BODY));
    assert_eq!(find(&book, 14), (given(0), CONTENTS + RIG_BODY, SHORT_BODY));
    assert_eq!(find(&book, 0), (request(64, 0), 0, 0));
    assert_eq!(list(&book, 2), (given(2), vec![9, 14]));
    assert_eq!(list(&book, 3), (given(2), vec![9, 14, 7]));
    assert_eq!(list(&book, 1), (request(50, 2), vec![7]));
    assert_eq!(list(&book, 0), (request(50, 2), vec![]));
}

#[test]
fn books_without_records() {
    for (capacity, length) in [(0, 4), (0, 5), (1, 20), (3, 52), (3, 65_536)] {
        let book = empty(capacity, length);
        assert_eq!(check(&book), given(0));
        assert_eq!(find(&book, 0), (request(64, 0), 0, 0));
        assert_eq!(list(&book, 0), (given(0), vec![]));
    }
}

/// Every question refuses a book that isn't well formed, and changes nothing.
fn ill_formed(book: &[u8], place: u32) {
    let refusal = request(63, place);
    assert_eq!(check(book), refusal);
    assert_eq!(find(book, 9), (refusal, 0, 0));
    assert_eq!(list(book, 0), (refusal, vec![]));
    assert_eq!(list(book, 2), (refusal, vec![7, 7]));
    // No descriptor, a bad one, and no room are judged after the book.
    for descriptor in [&[][..], &[0; 5000], SHORT] {
        let mut after = book.to_vec();
        assert_eq!(add(&mut after, descriptor, &[0, 0, 0, 1]), refusal);
        assert!(after == book);
    }
}

#[test]
fn books_that_are_not_well_formed() {
    for length in [0, 3, 65_537] {
        let mut book = two(TWO);
        book.resize(length, 0);
        ill_formed(&book, 0);
    }
    ill_formed(&two(TWO)[..CONTENTS - 1], 2);
    ill_formed(&two(TWO)[..4], 2);
    ill_formed(&two(TWO)[..TWO - 1], 1);
    // A byte put elsewhere: in the capacity, the count, an entry or a body.
    for (at, byte, place) in [
        (0, 1, 258),
        (3, 3, 2),
        (7, 8, 0),
        (11, 37, 0),
        (15, 21, 0),
        (19, 7, 0),
        (20, 1, 1),
        (23, 9, 1),
        (27, 63, 1),
        (35, 5, 1),
        (CONTENTS + 3, 0x51, 0),
        (CONTENTS + RIG_BODY - 1, 8, 0),
        (TWO - 1, 9, 1),
    ] {
        let mut book = two(TWO);
        book[at] = byte;
        ill_formed(&book, place);
    }
    let mut unused = two(TWO);
    unused[3] = 1;
    ill_formed(&unused, 1);
}

/// Checks a refusal of a record, which changes nothing.
fn refused(book: &[u8], descriptor: &[u8], data: &[u8], refusal: Answer) {
    let mut after = book.to_vec();
    assert_eq!(add(&mut after, descriptor, data), refusal);
    assert!(after == book);
}

#[test]
fn records_that_are_refused() {
    // A book that could take nothing: the record is judged all the same.
    for book in [two(TWO), two(TWO + 100), empty(0, 4)] {
        refused(&book, &[], &[], answer(2, 1, 0));
        refused(&book, &[0; 4097], &[], answer(1, 1, 0));
        refused(&book, RIG, &[0, 25, 0], answer(21, 3, 2));
        refused(&book, RIG, &[0; 7], answer(25, 3, 6));
        refused(&book, RIG, &[0; 65_537], answer(20, 3, 0));
        refused(&book, &[0, 4, 0, 7], &[0; 4], answer(41, 1, 0));
        refused(&book, MISSING, &[0; 4], answer(42, 2, 0));
        refused(&book, TWICE, &[0; 8], answer(43, 2, 0));
        refused(&book, SIGNED, &[0; 4], answer(44, 2, 0));
    }
}

#[test]
fn what_has_no_place_in_a_book() {
    let full = two(TWO + 100);
    refused(&full, SHORT, &[0, 0, 0, 9], request(60, 0));
    refused(&full, SHORT, &[0, 0, 0, 14], request(60, 1));
    refused(&full, SHORT, &[0, 0, 0, 15], request(61, 0));
    for room in 0..SHORT_BODY {
        let book = empty(1, 20 + room);
        refused(&book, SHORT, &[0, 0, 0, 9], request(62, 20));
    }
    let mut book = empty(2, CONTENTS + SHORT_BODY);
    assert_eq!(add(&mut book, SHORT, &[0xFF; 4]), given(0));
    refused(&book, SHORT, &[0xFF; 4], request(60, 0));
    refused(&book, SHORT, &[0; 4], request(62, 20));
    assert_eq!(list(&book, 1), (given(1), vec![u32::MAX]));
}

#[test]
fn the_reserved_byte_is_kept_as_lent() {
    let mut reserved = SHORT.to_vec();
    reserved[2] = 0x40;
    reserved[8] = 0x41;
    let mut book = empty(1, 40);
    assert_eq!(add(&mut book, &reserved, &[0, 0, 0, 9]), given(0));
    assert_eq!(book[20..36], reserved);
    assert_eq!(check(&book), given(0));
}

#[test]
fn a_book_as_a_type() -> Result<(), Refusal> {
    let [rig, short] = [RIG, SHORT].map(|bytes| Descriptor::new(bytes).expect("both are"));
    let mut book = Book::new(empty(2, TWO + 3))?;
    assert_eq!(book.identifiers(), []);
    book.add(rig.data(&[0, 25, 0, 0, 0, 9])?)?;
    book.add(short.data(&[0, 0, 0, 14])?)?;
    assert_eq!(book.as_bytes(), two(TWO + 3));
    assert_eq!(book, Book::new(two(TWO + 3))?);
    assert_eq!(book.identifiers(), [9, 14]);
    assert_eq!(book.find(14)?, [SHORT, &[0, 0, 0, 14]].concat());
    let mut out = [7; 3];
    assert_eq!(book.identifiers_into(&mut out)?, 2);
    assert_eq!(out, [9, 14, 7]);
    Ok(())
}

#[test]
fn a_book_s_refusals_are_the_library_s() -> Result<(), Refusal> {
    let refusal = |number, input, place| Refusal {
        number,
        input,
        place,
    };
    let short = Descriptor::new(SHORT)?;
    let mut book = Book::new(two(TWO))?;
    let before = book.clone();
    let blank = |identifier: u8| [0, 0, 0, identifier];
    assert_eq!(Book::new([0; 3]).unwrap_err(), refusal(63, 4, 0));
    assert_eq!(Book::new([0, 2, 0, 0]).unwrap_err(), refusal(63, 4, 2));
    assert_eq!(book.find(1).unwrap_err(), refusal(64, 4, 0));
    for (sent, expected) in [(14, refusal(60, 4, 1)), (1, refusal(61, 4, 0))] {
        let added = book.add(short.data(&blank(sent))?);
        assert_eq!(added.unwrap_err(), expected);
    }
    let signed = Descriptor::new(SIGNED)?;
    let added = book.add(signed.data(&blank(1))?);
    assert_eq!(added.unwrap_err(), refusal(44, 2, 0));
    assert_eq!(
        book.identifiers_into(&mut [7]).unwrap_err(),
        refusal(50, 4, 2)
    );
    assert_eq!(book, before);
    Ok(())
}
