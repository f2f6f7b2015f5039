//! What each question about a book gives.

use super::{add, shelf};
use crate::common::books::{Record, blank, book, plain};
use crate::common::descriptors::{cluster, descriptor, named, string};
use crate::common::{Folder, hex};

#[test]
fn a_new_book_is_all_zero_but_its_capacity() {
    let folder = Folder::new("book-new");
    for (capacity, bytes, said) in [
        ("4", "160", "160 bytes written, 4 entries, 92 bytes free"),
        ("1", "20", "20 bytes written, 1 entry, 0 bytes free"),
        ("0", "4", "4 bytes written, 0 entries, 0 bytes free"),
        ("2", "37", "37 bytes written, 2 entries, 1 byte free"),
        (
            "4095",
            "65536",
            "65536 bytes written, 4095 entries, 12 bytes free",
        ),
    ] {
        let name = format!("new-{capacity}");
        let words = [
            "book",
            "new",
            &name,
            "--capacity",
            capacity,
            "--bytes",
            bytes,
        ];
        folder.run(&words).gives(&format!("{name}: {said}\n"));
        let capacity = capacity.parse().expect("it is a number");
        let length = bytes.parse().expect("it is a number");
        assert_eq!(folder.read(&name), book(capacity, length, &[]));
        assert_eq!(folder.run(&["book", "check", &name]).status, 0);
    }
    assert!(folder.names().iter().all(|name| name.starts_with("new-")));
    folder
        .run(&["book", "new", "j", "--capacity=4", "--bytes=160", "--json"])
        .gives(concat!(
            r#"{"number":0,"input":0,"place":0,"#,
            r#""capacity":4,"records":0,"bytes":160,"used":68,"free":92}"#,
            "\n"
        ));
}

#[test]
fn what_can_be_no_book() {
    let folder = Folder::new("book-none");
    let new = |capacity: &str, bytes: &str| {
        folder.run(&["book", "new", "b", "--capacity", capacity, "--bytes", bytes])
    };
    for (capacity, least, bytes) in [("4", 68, "67"), ("0", 4, "3"), ("0", 4, "0")] {
        new(capacity, bytes).troubles(&format!(
            "b: with a capacity of {capacity} a book has at least {least} bytes, \
             4 and 16 for each entry, and {bytes} are asked for"
        ));
    }
    let most = u64::MAX.to_string();
    for (capacity, bytes) in [("4", "65537"), ("4096", "65537"), (&most, &most)] {
        new(capacity, bytes).troubles(&format!(
            "b: a book has at most 65536 bytes, and {bytes} are asked for"
        ));
    }
    for capacity in ["4096", "65540", &most] {
        new(capacity, "65536").troubles(&format!(
            "b: a book has at most 4095 entries, and {capacity} are asked for"
        ));
    }
    new("-1", "100").troubles("--capacity needs a number of entries");
    new("1", "1k").troubles("--bytes needs a number of bytes");
    assert_eq!(folder.names(), [""; 0]);
}

#[test]
fn a_check_says_what_is_used_and_free() {
    let folder = shelf("book-check");
    folder.run(&["book", "check", "book"]).gives(
        "book: accepted, 2 records\n  2 of 4 entries in use, 2 free\n  108 of 200 bytes in use, 92 free\n",
    );
    folder
        .run(&["book", "check", "book", "--json"])
        .gives(concat!(
            r#"{"number":0,"input":0,"place":0,"#,
            r#""capacity":4,"records":2,"bytes":200,"used":108,"free":92}"#,
            "\n"
        ));
    folder.put("full", &plain(1, 40, &[7]));
    folder.run(&["book", "check", "full"]).gives(
        "full: accepted, 1 record\n  1 of 1 entry in use, 0 free\n  40 of 40 bytes in use, 0 free\n",
    );
    // What is free may hold anything.
    let mut rest = plain(4, 200, &[9, 14]);
    rest[108..].fill(0xA5);
    folder.put("rest", &rest);
    assert_eq!(folder.run(&["book", "check", "rest"]).status, 0);
    // As many as there can be.
    let identifiers: Vec<u32> = (0..1820).collect();
    folder.put("most", &plain(1820, 65536, &identifiers));
    folder.run(&["book", "check", "most"]).gives(
        "most: accepted, 1820 records\n  1820 of 1820 entries in use, 0 free\n  65524 of 65536 bytes in use, 12 free\n",
    );
}

#[test]
fn a_record_is_added_behind_the_others() {
    let folder = shelf("book-add");
    add(&folder, 0xFFFF_FFFF)
        .gives("book: identifier 4294967295 added as entry 2, 20 bytes at 108\n");
    assert_eq!(folder.read("book"), plain(4, 200, &[9, 14, u32::MAX]));
    let words = ["book", "add", "book", "types", "data-0", "--json"];
    folder.put("data-0", &[0; 4]);
    folder.run(&words).gives(concat!(
        r#"{"number":0,"input":0,"place":0,"identifier":0,"entry":3,"#,
        r#""start":128,"length":20,"descriptor":16,"data":4}"#,
        "\n"
    ));
    assert_eq!(folder.read("book"), plain(4, 200, &[9, 14, u32::MAX, 0]));
    assert_eq!(
        folder.names(),
        ["book", "data-0", "data-4294967295", "types"]
    );
}

#[test]
fn what_was_free_and_is_left_keeps_its_bytes() {
    let folder = shelf("book-rest");
    let mut rest = plain(4, 200, &[9, 14]);
    rest[108..].fill(0xA5);
    folder.put("book", &rest);
    assert_eq!(add(&folder, 7).status, 0);
    let mut expected = plain(4, 200, &[9, 14, 7]);
    expected[128..].fill(0xA5);
    assert_eq!(folder.read("book"), expected);
}

#[test]
fn descriptor_and_data_are_raw_or_text() {
    let names = ["plating.hex", "data/plating.hex"];
    let folder = Folder::with_samples("book-text", &names);
    let text = "0016 0050 0002 0006 0002 0174 000A 0007 0562 6C61 6E6B";
    folder.put("types", &hex(text));
    folder.put("types.txt", text.as_bytes());
    folder.put("data.txt", b"0019 # 25 degrees\n0000 0010");
    // A book is raw, whatever its name and the options.
    folder.put("book.hex", &plain(3, 200, &[]));
    let said = |identifier: u32, entry: usize| {
        let start = 52 + 28 * entry;
        format!("book.hex: identifier {identifier} added as entry {entry}, 28 bytes at {start}\n")
    };
    let add = ["book", "add", "book.hex"];
    let words = [&add[..], &["plating.hex", "data-plating.hex"]].concat();
    folder.run(&words).gives(&said(9, 0));
    let words = [&add[..], &["types.txt", "data.txt", "--hex"]].concat();
    folder.run(&words).gives(&said(16, 1));
    // Either may come from standard input.
    let words = [&add[..], &["types", "-"]].concat();
    let fed = folder.feed(&words, &hex("0019 00000011"));
    fed.gives(&said(17, 2));
    let records = [9, 16, 17].map(|identifier| Record {
        identifier,
        descriptor: hex(text),
        data: [&[0, 25][..], &u32::to_be_bytes(identifier)].concat(),
    });
    assert_eq!(folder.read("book.hex"), book(3, 200, &records));
    folder
        .run(&["book", "list", "book.hex", "--hex"])
        .gives("9\n16\n17\n");
}

#[test]
fn the_identifier_is_read_by_name_and_type() {
    let folder = Folder::new("book-name");
    let number = |name: &[u8], code| named(descriptor(code, &[]), name);
    let inner = named(cluster(&[number(b"blank", 0x07)]), b"inner");
    let types = cluster(&[
        number(b"Blank", 0x07),
        named(string(), b""),
        number(b"blank", 0x07),
        inner,
    ]);
    folder.put("types", &types);
    folder.put("data", &hex("00000001 00000002 6869 00000003 00000004"));
    folder.put("book", &plain(1, 200, &[]));
    folder
        .run(&["book", "add", "book", "types", "data"])
        .gives(&format!(
            "book: identifier 3 added as entry 0, {} bytes at 20\n",
            types.len() + 18
        ));
}

#[test]
fn a_record_is_found_by_its_identifier() {
    let folder = shelf("book-find");
    let found = "# 20 bytes at 88: a descriptor of 16 bytes, then data of 4 bytes\n\
                 0010 0050 0001 000A 0007 0562 6C61 6E6B\n0000 000E\n";
    for identifier in ["14", "0014", "0xe", "0xE", "0X0000000e"] {
        folder
            .run(&["book", "find", "book", identifier])
            .gives(found);
    }
    folder
        .run(&["book", "find", "book", "14", "--json"])
        .gives(concat!(
            r#"{"number":0,"input":0,"place":0,"identifier":14,"entry":1,"#,
            r#""start":88,"length":20,"descriptor":16,"data":4,"#,
            r#""bytes":"001000500001000A000705626C616E6B0000000E"}"#,
            "\n"
        ));
    folder
        .feed(&["book", "find", "-", "14"], &folder.read("book"))
        .gives(found);
}

#[test]
fn a_body_s_parts_are_given_apart() {
    let folder = shelf("book-parts");
    let find = |more: &[&str]| folder.run(&[&["book", "find", "book", "14"], more].concat());
    find(&["--descriptor"]).gives("# 16 bytes at 88\n0010 0050 0001 000A 0007 0562 6C61 6E6B\n");
    find(&["--data"]).gives("# 4 bytes at 104\n0000 000E\n");
    find(&["--data", "--json"]).gives(concat!(
        r#"{"number":0,"input":0,"place":0,"identifier":14,"entry":1,"#,
        r#""start":104,"length":4,"descriptor":16,"data":4,"bytes":"0000000E"}"#,
        "\n"
    ));
    find(&["--descriptor", "-o", "t"]).writes("t: 16 bytes written");
    find(&["--data", "-o", "d.hex"]).writes("d.hex: 4 bytes written");
    assert_eq!(folder.read("t"), blank());
    assert_eq!(folder.read("d.hex"), b"0000 000E\n");
    folder.run(&["value", "t", "d.hex", "blank"]).gives("14\n");
    find(&["-o", "body"]).writes("body: 20 bytes written");
    assert_eq!(folder.read("body"), [&blank()[..], &[0, 0, 0, 14]].concat());
    assert_eq!(find(&["--data", "-o", "-"]).out, [0, 0, 0, 14]);
    find(&["--data", "-o", "d", "--json"]).gives(concat!(
        r#"{"number":0,"input":0,"place":0,"bytes":"0000000E","out":"d"}"#,
        "\n"
    ));
}

#[test]
fn what_is_no_identifier() {
    let folder = shelf("book-identifier");
    for word in [
        "",
        "x",
        "0x",
        "9 ",
        "+9",
        "0x+9",
        "e",
        "4294967296",
        "0x100000000",
        "1.0",
    ] {
        folder
            .run(&["book", "find", "book", word])
            .troubles(&format!(
                "{word} is no identifier: it is a number from 0 to 4294967295, \
             or such a one in hexadecimal behind 0x"
            ));
    }
    folder
        .run(&["book", "find", "book", "-9"])
        .troubles("there is no option -9; see kerbcanopy --help");
}

#[test]
fn identifiers_are_listed_in_entry_order() {
    let folder = Folder::new("book-list");
    folder.put("book", &plain(5, 200, &[14, 9, u32::MAX, 0]));
    let list = ["book", "list", "book"];
    folder.run(&list).gives("14\n9\n4294967295\n0\n");
    folder
        .run(&[&list[..], &["--json"]].concat())
        .gives("{\"number\":0,\"input\":0,\"place\":4,\"identifiers\":[14,9,4294967295,0]}\n");
    folder
        .feed(&["book", "list", "-"], &folder.read("book"))
        .gives("14\n9\n4294967295\n0\n");
    folder.put("book", &plain(5, 200, &[]));
    folder.run(&list).gives("");
    folder
        .run(&[&list[..], &["--json"]].concat())
        .gives("{\"number\":0,\"input\":0,\"place\":0,\"identifiers\":[]}\n");
}
