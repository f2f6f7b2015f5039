//! `explain`: every byte with what it is, as text.

use crate::common::descriptors::{
    array, cluster, descriptor, enumeration, named, quantity, string,
};
use crate::common::{Folder, hex};

/// The bytes of each section of an explanation, in order, each at its place.
fn bytes_of(text: &str) -> Vec<Vec<u8>> {
    let mut sections = Vec::new();
    for line in text.lines() {
        let Some(place) = line.get(..11).filter(|head| head.starts_with(' ')) else {
            sections.push(Vec::new());
            continue;
        };
        let section: &mut Vec<u8> = sections.last_mut().expect("a heading comes first");
        if place.trim().is_empty() {
            continue;
        }
        let at = section.len();
        assert_eq!(place, format!("{at:>5}  {at:04X}"), "{text}");
        let bytes = line[11..].get(..28).unwrap_or(&line[11..]);
        let bytes = bytes.replace(['[', ']'], " ");
        section.extend(hex(bytes.trim()));
    }
    sections
}

#[test]
fn each_field_has_a_line() {
    let folder = Folder::with_samples("explain-rig", &["rig.hex", "data/rig.hex"]);
    folder.run(&["explain", "rig.hex", "data-rig.hex"]).gives(
        "rig.hex: 20 bytes, accepted, 3 types
    0  0000  00 14                      size 20
    2  0002  00                         reserved
    3  0003  50                         code 50, cluster
    4  0004  00 02                      2 members
    6  0006  00 06                        member 0: size 6
    8  0008  00                           reserved
    9  0009  02                           code 02, signed 16-bit integer
   10  000A  01 74                        name \"t\"
   12  000C  00 08                        member 1: size 8
   14  000E  00                           reserved
   15  000F  07                           code 07, unsigned 32-bit integer
   16  0010  02 69 64                     name \"id\"
   19  0013  00                           fill
data-rig.hex: 6 bytes, accepted, 2 pieces
                                        cluster of 2 members
    0  0000  00 19                        0 \"t\" signed 16-bit integer = 25
    2  0002  00 00 00 09                  1 \"id\" unsigned 32-bit integer = 9
",
    );
}

/// A descriptor with every kind of body, and data under it.
fn everything() -> [Vec<u8>; 2] {
    let types = named(
        cluster(&[
            named(enumeration(0x16, &[b"on", b"\x1B", b""]), b"mode"),
            quantity(0x1A, &[(2, -1), (3, 1)]),
            named(string(), &[b'n'; 40]),
            array(2, &cluster(&[descriptor(0x05, &[]), descriptor(0x21, &[])])),
            named(descriptor(0x0E, &[]), b""),
        ]),
        b"all",
    );
    let elements: Vec<u8> = (0..20).flat_map(|element| [element, element % 2]).collect();
    let data = [
        hex("0001 3FF0000000000000 00000046"),
        vec![b'z'; 70],
        hex("00000004 00000005"),
        elements,
        vec![0x3F; 32],
    ];
    [types, data.concat()]
}

#[test]
fn every_byte_stands_there_once() {
    let folder = Folder::new("explain-all");
    let [types, data] = everything();
    folder.put("types", &types);
    folder.put("data", &data);
    let ran = folder.run(&["explain", "--all", "types", "data"]);
    assert_eq!(bytes_of(ran.text()), [types.clone(), data.clone()]);
    assert_eq!(ran.status, 0);
    // What is cut says how much it is.
    let ran = folder.run(&["explain", "types", "data"]);
    let text = ran.text();
    assert!(text.contains("\n             .. 9 more\n"), "{text}");
    assert!(text.contains("\n             .. 38 more\n"), "{text}");
    assert!(text.contains(" .. 12 more elements\n"), "{text}");
    assert!(text.contains(&format!("\"{}\" .. 10 more\n", "z".repeat(60))));
}

#[test]
fn bodies_are_explained() {
    let folder = Folder::new("explain-bodies");
    folder.put("types", &everything()[0]);
    let ran = folder.run(&["explain", "types"]);
    for line in [
        "   10  000A  00 03                        3 items\n",
        "   12  000C  02 6F 6E                     item 0: \"on\"\n",
        "   15  000F  01 1B                        item 1: \"\\x1B\"\n",
        "   17  0011  00                           item 2: \"\"\n",
        "   18  0012  04 6D 6F 64 65               name \"mode\"\n",
        "   23  0017  00                           fill\n",
        "   28  001C  00 02                        2 unit pairs\n",
        "   30  001E  00 02 FF FF                  unit pair 0: s^-1\n",
        "   34  0022  00 03 00 01                  unit pair 1: m\n",
        "   42  002A  FF FF FF FF                  length: any\n",
        "   98  0062  FF FF FF FF                  dimension 1: any size\n",
        "  102  0066  00 0E                          element: size 14\n",
        "  108  006C  00 04                            member 0: size 4\n",
        "  120  0078  00                           name \"\"\n",
    ] {
        assert!(ran.text().contains(line), "{line:?} in\n{}", ran.text());
    }
}

#[test]
fn a_refused_descriptor_is_read_up_to_its_place() {
    let folder = Folder::with_samples("explain-refused", &["array-in-array.hex"]);
    let ran = folder.run(&["explain", "array-in-array.hex"]);
    assert_eq!(
        ran.text(),
        "array-in-array.hex: 24 bytes, refused with 10
    0  0000  00 18                      size 24
    2  0002  00                         reserved
    3  0003  40                         code 40, array
    4  0004  00 01                      1 dimension
    6  0006  FF FF FF FF                dimension 0: any size
   10  000A  00 0E                        element: size 14
   12  000C  00                           reserved
   13  000D [40]                          code 40, array in an array
             ^                          refused with 10: a length or dimension is not FFFFFFFF, \
         a unit's base is over 8, an enumeration's fill byte is not zero, an array stands \
         directly in an array, or a time stamp holds anything but its cluster of four integers
   14  000E  00 01 FF FF FF FF 00 04      not read
   22  0016  00 0A
"
    );
    assert!(ran.complaint().contains("refused with 10: "));
    assert_eq!(ran.status, 1);
}

#[test]
fn refused_data_is_read_up_to_its_place() {
    let folder = Folder::with_samples("explain-flag", &["rig.hex", "data/rig-cut.hex"]);
    let ran = folder.run(&["explain", "rig.hex", "data-rig-cut.hex"]);
    let (_, data) = ran
        .text()
        .split_once("data-rig-cut.hex: ")
        .expect("the data is there");
    assert_eq!(
        data,
        "5 bytes, refused with 21
                                        cluster of 2 members
    0  0000  00 19                        0 \"t\" signed 16-bit integer = 25
    2  0002 [00]00 00                     1 \"id\" unsigned 32-bit integer: refused, \
         4 bytes needed, 3 left
             ^                          refused with 21: the data ends inside this piece
"
    );
    assert_eq!(ran.status, 1);
    assert_eq!(
        ran.complaint(),
        "data-rig-cut.hex: refused with 21: the data ends inside this piece \
         (input 3, the data; place 2; in 1 \"id\"): 00 19 [00] 00 00; 4 bytes needed, 3 left"
    );
}

#[test]
fn a_place_at_the_end_is_marked() {
    let folder = Folder::with_samples("explain-end", &["rig.hex"]);
    folder.put("data", &hex("0019"));
    folder.put("none", b"");
    let ran = folder.run(&["explain", "rig.hex", "data"]);
    let end = "\
                                          1 \"id\" unsigned 32-bit integer: refused, 4 bytes needed, 0 left
    2  0002  [end]                      refused with 21: the data ends inside this piece
";
    assert!(ran.text().ends_with(end), "{}", ran.text());
    let ran = folder.run(&["explain", "none"]);
    assert_eq!(
        ran.text(),
        "none: 0 bytes, refused with 2
    0  0000  [end]                      refused with 2: fewer than 4 bytes are left where a \
         descriptor should start
"
    );
}

#[test]
fn an_element_far_behind_is_shown_where_it_is_at_fault() {
    let folder = Folder::new("explain-far");
    folder.put("types", &array(1, &enumeration(0x15, &[b"off", b"on"])));
    let mut data = hex("00000014");
    data.extend([1; 20]);
    data[4 + 15] = 9;
    folder.put("data", &data);
    let ran = folder.run(&["explain", "types", "data"]);
    let tail = "\
   11  000B  01                           7 8-bit enumeration of 2 items = 1 \"on\"
   12  000C  01 01 01 01 01 01 01         .. 7 more elements
   19  0013 [09]                          15 8-bit enumeration of 2 items: refused, \
         number 9 of 2 items
             ^                          refused with 23: the enumeration has no item of this number
   20  0014  01 01 01 01                not read
";
    assert!(ran.text().ends_with(tail), "{}", ran.text());
}

#[test]
fn a_damaged_length_is_told() {
    let folder = Folder::new("explain-length");
    let types = cluster(&[descriptor(0x05, &[]), named(string(), b"note")]);
    folder.put("types", &types);
    for (data, expected) in [
        (
            "07 00000009 616263",
            "data: 8 bytes, refused with 21
                                        cluster of 2 members
    0  0000  07                           0 unsigned 8-bit integer = 7
    1  0001 [00]00 00 09 61 62 63         1 \"note\" string: refused, length 9, 3 bytes behind it
             ^                          refused with 21: the data ends inside this piece
",
        ),
        (
            "07 80000003 616263",
            "data: 8 bytes, refused with 22
                                        cluster of 2 members
    0  0000  07                           0 unsigned 8-bit integer = 7
    1  0001 [80]00 00 03                  1 \"note\" string: refused, length 2147483651
             ^                          refused with 22: a length or size is 2147483648 or more
    5  0005  61 62 63                   not read
",
        ),
    ] {
        folder.put("data", &hex(data));
        let ran = folder.run(&["explain", "types", "data"]);
        assert!(ran.text().ends_with(expected), "{}", ran.text());
        assert_eq!(ran.status, 1);
    }
}

#[test]
fn an_input_that_is_too_long_has_more() {
    let folder = Folder::new("explain-long");
    folder.put("types", &descriptor(0x05, &[]));
    folder.put("long", &[0; 70000]);
    let expected = |refused: &str, meaning: &str| {
        format!(
            "long: {refused}
    0  0000 [00]00 00 00 00 00 00 00    not read
             ^                          {refused}: {meaning}
    8  0008  00 00 00 00 00 00 00 00
   16  0010  00 00 00 00 00 00 00 00
   24  0018  00 00 00 00 00 00 00 00
             .. and more
"
        )
    };
    let ran = folder.run(&["explain", "long"]);
    let meaning = "the descriptor has more than 4,096 bytes";
    assert_eq!(ran.text(), expected("refused with 1", meaning));
    assert_eq!(ran.status, 1);
    let ran = folder.run(&["explain", "types", "long"]);
    let meaning = "the data has more than 65,536 bytes";
    let data = expected("refused with 20", meaning);
    assert!(ran.text().ends_with(&data), "{}", ran.text());
    assert_eq!(ran.status, 1);
}

#[test]
fn a_code_that_is_not_read_is_told() {
    let folder = Folder::new("explain-code");
    folder.put("types", &cluster(&[descriptor(0x37, &[])]));
    let ran = folder.run(&["explain", "types"]);
    let tail = "\
    9  0009 [37]                          code 37, no type that is read here
             ^                          refused with 5: the code is none that is read here, \
         or a time stamp's subtype is not 6
";
    assert!(ran.text().ends_with(tail), "{}", ran.text());
    assert_eq!(ran.status, 1);
}

#[test]
fn data_under_a_refused_descriptor_is_not_explained() {
    let names = ["rig-cut.hex", "data/rig.hex"];
    let folder = Folder::with_samples("explain-no-data", &names);
    let ran = folder.run(&["explain", "rig-cut.hex", "data-rig.hex"]);
    assert!(
        ran.text()
            .starts_with("rig-cut.hex: 16 bytes, refused with 4\n")
    );
    assert!(!ran.text().contains("data-rig.hex"));
    assert!(ran.complaint().starts_with("rig-cut.hex: refused with 4: "));
    assert_eq!(ran.status, 1);
}

#[test]
fn the_text_goes_to_a_file_too() {
    let folder = Folder::with_samples("explain-file", &["rig.hex", "rig-cut.hex"]);
    let text = folder.run(&["explain", "rig.hex"]).out;
    folder
        .run(&["explain", "rig.hex", "-o", "out.txt"])
        .writes("out.txt: written");
    assert_eq!(folder.read("out.txt"), text);
    let shown = folder.run(&["explain", "rig.hex", "-o", "-"]);
    assert_eq!(shown.out, text);
    let refused = folder.run(&["explain", "rig-cut.hex"]).out;
    let ran = folder.run(&["explain", "rig-cut.hex", "-o", "out.txt"]);
    assert_eq!((ran.status, ran.text()), (1, ""));
    assert_eq!(ran.note, "kerbcanopy: out.txt: written");
    assert_eq!(folder.read("out.txt"), refused);
}
