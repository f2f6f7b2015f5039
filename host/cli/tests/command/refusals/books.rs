//! 60 to 64: a book, and what is asked of it.

use super::{Refused, around, meaning};
use crate::common::Folder;
use crate::common::books::{Record, blank, book, plain, record};
use crate::common::descriptors::{cluster, descriptor, named};
use crate::common::hex;

/// A book that is refused, or a request to it.
fn refused(number: u32, place: usize) -> Refused<'static> {
    Refused {
        number,
        file: "book",
        input: 4,
        role: "the request",
        place,
        path: &[],
        there: "",
        facts: "",
    }
}

const ADD: [&str; 5] = ["book", "add", "book", "types", "data"];

/// A folder with this book, and a record of identifier 9 to be added.
fn shelf(test: &str, book: &[u8]) -> Folder {
    let folder = Folder::new(test);
    folder.put("book", book);
    folder.put("types", &blank());
    folder.put("data", &9u32.to_be_bytes());
    folder
}

#[test]
fn number_60_has_the_entry() {
    let bytes = plain(4, 200, &[7, 14, 9]);
    let folder = shelf("refused-60", &bytes);
    let there = Refused {
        there: &around(&bytes, 36),
        facts: "entry 2 has identifier 9",
        ..refused(60, 2)
    };
    there.by(&folder, &ADD);
    // Before 61 and 62.
    let bytes = plain(1, 40, &[9]);
    folder.put("book", &bytes);
    let there = Refused {
        there: &around(&bytes, 4),
        facts: "entry 0 has identifier 9",
        ..refused(60, 0)
    };
    there.by(&folder, &ADD);
    assert_eq!(folder.read("book"), bytes);
}

#[test]
fn number_61_has_the_capacity() {
    for (capacity, identifiers, facts) in [
        (0, &[][..], "0 entries in use"),
        (1, &[7], "1 entry in use"),
        (2, &[7, 14], "2 entries in use"),
    ] {
        // Before 62: there is no room either.
        let length = 4 + 36 * usize::from(capacity);
        let bytes = plain(capacity, length, identifiers);
        let folder = shelf("refused-61", &bytes);
        let full = Refused {
            there: &format!("capacity {capacity}"),
            facts,
            ..refused(61, 0)
        };
        full.by(&folder, &ADD);
        assert_eq!(folder.read("book"), bytes);
    }
}

#[test]
fn number_62_has_what_is_needed_and_left() {
    for (free, there) in [
        (0, "room for 0 bytes"),
        (1, "room for 1 byte"),
        (19, "room for 19 bytes"),
    ] {
        let bytes = plain(2, 56 + free, &[7]);
        let folder = shelf("refused-62", &bytes);
        let small = Refused {
            there,
            facts: "20 bytes needed",
            ..refused(62, 20)
        };
        small.by(&folder, &ADD);
        assert_eq!(folder.read("book"), bytes);
    }
    let folder = shelf("refused-62-not", &plain(2, 76, &[7]));
    assert_eq!(folder.run(&ADD).status, 0);
}

#[test]
fn number_64_has_the_identifiers() {
    let folder = shelf("refused-64", &plain(4, 200, &[7, 14]));
    let none = Refused {
        there: "identifier 9",
        facts: "the book has 7, 14",
        ..refused(64, 0)
    };
    none.by(&folder, &["book", "find", "book", "9"]);
    none.by(&folder, &["book", "find", "book", "0x9", "-o", "out"]);
    folder.put("book", &plain(4, 200, &[]));
    let none = Refused {
        there: "identifier 0",
        facts: "the book has no record",
        ..none
    };
    none.by(&folder, &["book", "find", "book", "0"]);
    let many: Vec<u32> = (1..=14).collect();
    folder.put("book", &plain(20, 1000, &many));
    let none = Refused {
        facts: "the book has 1, 2, 3, 4, 5, 6, 7, 8, 9, 10, 11, 12, .. 2 more",
        ..none
    };
    none.by(&folder, &["book", "find", "book", "0"]);
}

/// Every question about a book refuses it so.
fn ill_formed(test: &str, bytes: &[u8], place: usize, byte: usize, facts: &str) {
    let folder = shelf(test, bytes);
    let there = around(bytes, byte);
    let wrong = Refused {
        there: there.trim_start(),
        facts,
        ..refused(63, place)
    };
    wrong.by(&folder, &["book", "check", "book"]);
    wrong.by(&folder, &["book", "find", "book", "9"]);
    wrong.by(&folder, &["book", "list", "book"]);
    wrong.by(&folder, &ADD);
    // Before the record's own.
    folder.put("data", b"");
    wrong.by(&folder, &ADD);
    assert_eq!(folder.read("book"), bytes);
}

#[test]
fn number_63_of_the_whole_book() {
    ill_formed(
        "refused-63-empty",
        b"",
        0,
        0,
        "0 bytes, and a book has at least 4",
    );
    ill_formed(
        "refused-63-short",
        &[0, 1, 0],
        0,
        3,
        "3 bytes, and a book has at least 4",
    );
    let facts = "a capacity of 4 needs 68 bytes, 67 are there";
    ill_formed("refused-63-cut", &plain(4, 68, &[])[..67], 4, 0, facts);
    let mut bytes = plain(4, 200, &[7]);
    bytes[3] = 5;
    ill_formed(
        "refused-63-count",
        &bytes,
        4,
        2,
        "5 entries in use, the capacity is 4",
    );
    let facts = "1 entry in use, the capacity is 0";
    ill_formed("refused-63-none", &[0, 0, 0, 1, 0, 0], 0, 2, facts);
}

#[test]
fn number_63_of_an_unused_entry() {
    let mut bytes = plain(4, 200, &[7, 14]);
    bytes[4 + 3 * 16 + 9] = 1;
    let facts = "unused entry 3 is not zero, its first other byte is 61";
    ill_formed("refused-63-unused", &bytes, 3, 61, facts);
    // The count was lowered: entry 1 was in use.
    let mut bytes = plain(4, 200, &[7, 14]);
    bytes[3] = 1;
    let facts = "unused entry 1 is not zero, its first other byte is 23";
    ill_formed("refused-63-lowered", &bytes, 1, 23, facts);
}

#[test]
fn number_63_of_where_a_body_stands() {
    let mut bytes = plain(4, 200, &[7, 14]);
    bytes[4 + 7] = 70;
    let facts = "entry 0: its body starts at 70, the contents end at 68";
    ill_formed("refused-63-first", &bytes, 0, 8, facts);
    let mut bytes = plain(4, 200, &[7, 14]);
    bytes[20 + 4..20 + 8].fill(0xFF);
    let facts = "entry 1: its body starts at 4294967295, the one before ends at 88";
    ill_formed("refused-63-start", &bytes, 1, 24, facts);
    let mut bytes = plain(4, 200, &[7, 14]);
    bytes[20 + 8..20 + 16].fill(0xFF);
    let facts = "entry 1: its body ends at 8589934678, the book at 200";
    ill_formed("refused-63-long", &bytes, 1, 28, facts);
    let facts = "entry 1: its body ends at 108, the book at 107";
    ill_formed(
        "refused-63-end",
        &plain(4, 200, &[7, 14])[..107],
        1,
        28,
        facts,
    );
}

/// A book whose second record is refused.
fn second(descriptor: Vec<u8>, data: &str) -> Vec<u8> {
    let second = Record {
        identifier: 14,
        descriptor,
        data: hex(data),
    };
    book(4, 200, &[record(7), second])
}

#[test]
fn number_63_of_a_record_in_it() {
    let t = || named(descriptor(0x02, &[]), b"t");
    let number = |code| named(descriptor(code, &[]), b"blank");
    let pair = cluster(&[t(), number(0x07)]);
    let pathless = cluster(&[descriptor(0x32, &[])]);
    let twice = cluster(&[number(0x07), number(0x07)]);
    for (bytes, behind, number, at) in [
        (second(pathless, "00"), 9, 5, " at 9 of its descriptor"),
        (second(pair, "0000 000000"), 24, 21, " at 2 of its data"),
        (second(blank(), "0000000E 00"), 20, 25, " at 4 of its data"),
        (
            second(number(0x07), "0000000E"),
            0,
            41,
            " at 0 of its descriptor",
        ),
        (second(cluster(&[t()]), "0000"), 0, 42, ""),
        (second(twice, "0000000E 0000000E"), 0, 43, ""),
        (second(cluster(&[number(0x03)]), "0000000E"), 0, 44, ""),
    ] {
        let means = meaning(number);
        let facts = format!("entry 1: its record is refused with {number}{at}: {means}");
        ill_formed("refused-63-record", &bytes, 1, 88 + behind, &facts);
    }
}

#[test]
fn number_63_of_an_identifier() {
    let mut bytes = plain(4, 200, &[7, 14]);
    bytes[20 + 3] = 9;
    let facts = "entry 1 has identifier 9, its record says 14";
    ill_formed("refused-63-identifier", &bytes, 1, 20, facts);
    let facts = "entries 1 and 3 both have identifier 9";
    ill_formed(
        "refused-63-twice",
        &plain(4, 200, &[7, 9, 14, 9]),
        3,
        52,
        facts,
    );
}

#[test]
fn text_in_place_of_a_book() {
    let folder = shelf("refused-63-text", b"0001 0000 # a book\n");
    let facts = "a capacity of 12336 needs 197380 bytes, 19 are there; \
                 it looks like hexadecimal text, and a book is raw";
    let wrong = Refused {
        there: &around(b"0001 0000 # a book\n", 0),
        facts,
        ..refused(63, 12336)
    };
    wrong.by(&folder, &["book", "check", "book"]);
    wrong.by(&folder, &["book", "check", "book", "--hex"]);
}

#[test]
fn a_record_s_own_refusals_come_before_the_book_s() {
    // No entry is free, and there is no room.
    let folder = shelf("refused-own", &plain(0, 4, &[]));
    let of = |number, file, input, role, place| Refused {
        file,
        input,
        role,
        ..refused(number, place)
    };
    folder.put("types", &blank()[..15]);
    let cut = Refused {
        there: &around(&blank()[..15], 0),
        facts: "size 16, 15 bytes there",
        ..of(4, "types", 1, "the descriptor", 0)
    };
    cut.by(&folder, &ADD);
    folder.put("types", &blank());
    folder.put("data", &[0; 3]);
    let cut = Refused {
        path: &[(0, Some("blank"))],
        there: &around(&[0; 3], 0),
        facts: "4 bytes needed, 3 left",
        ..of(21, "data", 3, "the data", 0)
    };
    cut.by(&folder, &ADD);
}

#[test]
fn a_record_without_its_identifier_is_refused() {
    let folder = shelf("refused-shape", &plain(0, 4, &[]));
    let number = |code| named(descriptor(code, &[]), b"blank");
    let plain = Refused {
        file: "types",
        input: 1,
        role: "the descriptor",
        there: "unsigned 32-bit integer \"blank\"",
        ..refused(41, 0)
    };
    folder.put("types", &number(0x07));
    plain.by(&folder, &ADD);
    let id = named(descriptor(0x07, &[]), b"id");
    let shape = |number, facts| Refused {
        number,
        input: 2,
        role: "the book's shape",
        path: &[(0, Some("blank"))],
        facts,
        ..plain
    };
    for (types, number, facts) in [
        (cluster(&[id]), 42, "the writer has \"id\""),
        (
            cluster(&[number(0x06), number(0x06)]),
            43,
            "the writer's members 0, 1 have it",
        ),
        (
            cluster(&[number(0x03)]),
            44,
            "first difference: the type is unsigned 32-bit integer here \
             and signed 32-bit integer in the writer",
        ),
    ] {
        folder.put("types", &types);
        shape(number, facts).by(&folder, &ADD);
    }
}
