//! 5 and 8 to 11 point at the byte: in the line, in JSON, and where `explain` marks
//! it. What is wrong is nested, and others stand before and behind it.

use super::{Refused, around};
use crate::common::descriptors::{
    array, cluster, descriptor, enumeration, named, quantity, string, time_stamp,
};
use crate::common::{Folder, hex};

/// Where what is wrong starts.
const START: usize = 28;

/// An array of clusters, in which it stands behind a member and before another.
fn types(wrong: &[u8]) -> Vec<u8> {
    let before = named(descriptor(0x05, &[]), b"before!");
    let behind = named(string(), b"behind");
    array(1, &cluster(&[before, wrong.to_vec(), behind]))
}

/// How it is refused. Places are counted from its start.
#[derive(Clone, Copy)]
struct Wrong<'a> {
    number: u32,
    place: usize,
    facts: &'a str,
    /// What `explain` says of the byte at the place.
    marked: &'a str,
    /// Where the descriptor at fault starts, and the steps to it.
    start: usize,
    path: &'a [usize],
}

impl<'a> Wrong<'a> {
    fn with(number: u32, place: usize, facts: &'a str) -> Wrong<'a> {
        Wrong {
            number,
            place,
            facts,
            marked: match number {
                8 => "after its end, not read",
                _ => facts,
            },
            start: 0,
            path: &[],
        }
    }

    #[track_caller]
    fn holds(self, test: &str, wrong: &[u8]) {
        let folder = Folder::new(test);
        let types = types(wrong);
        folder.put("types", &types);
        let place = START + self.place;
        let path = [&[0, 1], self.path].concat();
        let path: Vec<_> = path.iter().map(|&step| (step, None)).collect();
        let start = match self.number {
            _ if self.place == self.start => String::new(),
            8 => format!(
                "; its descriptor starts at {} and ends here",
                START + self.start
            ),
            _ => format!("; its descriptor starts at {}", START + self.start),
        };
        let refused = Refused {
            number: self.number,
            file: "types",
            input: 1,
            role: "the descriptor",
            place,
            path: &path,
            there: &around(&types, place),
            facts: &format!("{}{start}", self.facts),
        };
        refused.by(&folder, &["check", "types"]);
        self.is_marked(&folder, place, types[place]);
    }

    /// `explain` marks the byte, and no other, in each of its forms.
    #[track_caller]
    fn is_marked(&self, folder: &Folder, place: usize, byte: u8) {
        let ran = folder.run(&["explain", "types"]);
        let mut lines = ran.text().lines();
        let line = lines.find(|line| line.contains('[')).expect("it is marked");
        let head = format!("{place:>5}  {place:04X} [{byte:02X}]");
        assert!(line.starts_with(&head), "{line}");
        assert!(line.ends_with(&format!("  {}", self.marked)), "{line}");
        let under = format!("{:13}^{:26}refused with {}: ", "", "", self.number);
        assert!(lines.next().is_some_and(|line| line.starts_with(&under)));
        assert!(!lines.any(|line| line.contains(['[', '^'])));

        let json = folder.run(&["explain", "types", "--json"]).json();
        let fields = json.at("sections").list()[0].at("fields").list();
        let mut texts = fields
            .iter()
            .filter(|field| field.at("start").number() == place && field.at("length").number() > 0)
            .map(|field| field.at("text").text());
        assert_eq!(texts.next(), Some(self.marked));

        let ran = folder.run(&["explain", "types", "--html"]);
        let bytes = ran.text().split("<b class=\"").skip(1);
        let mut marks = bytes.filter(|byte| byte.split('"').next().unwrap().ends_with(" place"));
        let mark = format!(" data-at=\"{place}\">{byte:02X}</b>");
        assert!(marks.next().is_some_and(|marked| marked.contains(&mark)));
        assert_eq!(marks.next(), None);
    }
}

#[test]
fn number_5_points_at_the_low_code_byte() {
    let code = "code 37, no type that is read here";
    Wrong::with(5, 3, code).holds("place-5", &descriptor(0x37, b"\x01a"));
    // Its place is that of the code, whatever the subtype word is.
    let mut stamp = time_stamp();
    stamp[5] = 7;
    let subtype = Wrong {
        marked: "code 54, time stamp",
        ..Wrong::with(5, 3, "subtype 7, not 6")
    };
    subtype.holds("place-5-subtype", &stamp);
    let mut stamp = time_stamp();
    stamp[19] = 0x37;
    let inside = Wrong {
        start: 16,
        path: &[0, 1],
        ..Wrong::with(5, 19, code)
    };
    inside.holds("place-5-inside", &stamp);
}

#[test]
fn number_8_points_at_the_end() {
    for (test, bytes, facts) in [
        ("count", "0004 0050", "count: 2 bytes needed, 0 left"),
        ("items", "0004 0017", "count: 2 bytes needed, 0 left"),
        ("pairs", "0004 001E", "count: 2 bytes needed, 0 left"),
        ("dimensions", "0004 0040", "count: 2 bytes needed, 0 left"),
        ("subtype", "0004 0054", "subtype: 2 bytes needed, 0 left"),
        ("length", "0004 0030", "length: 4 bytes needed, 0 left"),
        ("half", "0006 0030 FFFF", "length: 4 bytes needed, 2 left"),
        ("item", "0006 0015 0001", "item 0: 1 byte needed, 0 left"),
        (
            "characters",
            "0008 0015 0001 0361",
            "item 0: 4 bytes needed, 2 left",
        ),
        (
            "second",
            "0008 0015 0002 0161",
            "item 1: 1 byte needed, 0 left",
        ),
        (
            "pair",
            "000A 0019 0002 0009 0001",
            "unit pair 1: 4 bytes needed, 0 left",
        ),
        (
            "dimension",
            "000C 0040 0002 FFFF FFFF FFFF",
            "dimension 1: 4 bytes needed, 2 left",
        ),
    ] {
        let bytes = hex(bytes);
        Wrong::with(8, bytes.len(), facts).holds(&format!("place-8-{test}"), &bytes);
    }
    let inner = Wrong {
        start: 6,
        path: &[0],
        ..Wrong::with(8, 10, "count: 2 bytes needed, 0 left")
    };
    inner.holds(
        "place-8-inner",
        &hex("0010 0050 0002 0004 0050 0006 0003 0161"),
    );
}

#[test]
fn number_9_points_at_the_count_word() {
    let holds = |test: &str, bytes: &[u8], facts| {
        Wrong::with(9, 4, facts).holds(&format!("place-9-{test}"), bytes);
    };
    holds("members", &cluster(&[]), "0 members, at least 1 is needed");
    holds(
        "items",
        &enumeration(0x15, &[]),
        "0 items, at least 1 is needed",
    );
    let ten = quantity(0x19, &[(1, 1); 10]);
    holds("pairs", &ten, "10 unit pairs, not 1 to 9");
    let five = array(5, &descriptor(1, &[]));
    let five = cluster(&[string(), five]);
    let inner = Wrong {
        start: 14,
        path: &[1],
        ..Wrong::with(9, 18, "5 dimensions, not 1 to 4")
    };
    inner.holds("place-9-dimensions", &five);
}

#[test]
fn number_10_points_at_the_wrong_word_or_byte() {
    let holds = |test: &str, bytes: &[u8], place, facts| {
        Wrong::with(10, place, facts).holds(&format!("place-10-{test}"), bytes);
    };
    let length = hex("0008 0030 FFFFFFFE");
    holds("length", &length, 4, "length: FFFFFFFE, not FFFFFFFF");
    // Of several the first.
    let dimensions = hex("0016 0040 0003 FFFFFFFF 7FFFFFFF 00000000 0004 0001");
    let facts = "dimension 1: 7FFFFFFF, not FFFFFFFF";
    holds("dimension", &dimensions, 10, facts);
    let bases = quantity(0x1A, &[(8, 9), (9, 1), (10, 1)]);
    holds("base", &bases, 10, "unit pair 1: base 9, not 0 to 8");
    let fill = hex("000C 0015 0001 0261 6201 0163");
    holds("fill", &fill, 9, "fill byte 01, not 00");
    let inner = Wrong {
        start: 10,
        path: &[0],
        ..Wrong::with(10, 13, "code 40, array in an array")
    };
    let arrays = array(1, &array(1, &descriptor(1, &[])));
    inner.holds("place-10-array", &arrays);
}

#[test]
fn number_10_of_a_time_stamp_points_at_its_start() {
    let mut stamp = time_stamp();
    stamp[27] = 3;
    let inside = "inside is no cluster of 03, 03, 07 and 07, all without names";
    let outer = Wrong {
        marked: "member 1: size 28",
        ..Wrong::with(10, 0, inside)
    };
    outer.holds("place-10-stamp", &stamp);
    // A wrong word in it has its own place.
    let string = hex("0008 0030 FFFFFFFE");
    let stamp = descriptor(0x54, &[&[0, 6], &string[..]].concat());
    let word = Wrong {
        start: 6,
        path: &[0],
        ..Wrong::with(10, 10, "length: FFFFFFFE, not FFFFFFFF")
    };
    word.holds("place-10-word", &stamp);
}

#[test]
fn number_11_points_behind_the_body() {
    let holds = |test: &str, bytes: &[u8], place, facts| {
        Wrong::with(11, place, facts).holds(&format!("place-11-{test}"), bytes);
    };
    let short = "a name of 2 characters takes 4 bytes, 2 left";
    holds("short", &hex("0006 0003 0261"), 4, short);
    let long = "a name of 1 character takes 2 bytes, 4 left";
    holds("long", &hex("0008 0003 0161 0000"), 4, long);
    let fill = "a name of 2 characters with 63 behind it, not 00";
    holds("fill", &hex("000C 0030 FFFFFFFF 0261 6263"), 8, fill);
    // Behind the children, of which the last has no name.
    let members = hex("0010 0050 0002 0004 0001 0004 0003 0261");
    holds("members", &members, 14, short);
    let element = hex("0010 0040 0001 FFFFFFFF 0004 0003 0261");
    holds("element", &element, 14, short);
    let stamp = [&[0, 30], &time_stamp()[2..], b"\x02a"].concat();
    holds("stamp", &stamp, 28, short);
    let items = hex("000C 0015 0001 0261 6200 0261");
    holds("items", &items, 10, short);
}
