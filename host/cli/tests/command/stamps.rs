//! Time stamps: dates in every listing, and the difference of two.

use crate::common::descriptors::{array, cluster, named, time_stamp};
use crate::common::json::{Json, parse};
use crate::common::{Folder, hex};

fn coat(test: &str) -> Folder {
    Folder::with_samples(test, &["coat.hex", "data/coat.hex"])
}

#[test]
fn a_dump_has_the_date_and_the_four_integers() {
    let folder = coat("stamps-dump");
    folder.run(&["dump", "coat.hex", "data-coat.hex"]).gives(
        "data-coat.hex: accepted, 9 pieces
  -      cluster of 3 members, 36 bytes at 0
  0      unsigned 32-bit integer \"id\" = 9, 4 bytes at 0
  1      time stamp \"start\" = 2024-02-29 23:58:30.75 UTC, 16 bytes at 4
  1 0    cluster of 4 members, 16 bytes at 4
  1 0 0  signed 32-bit integer = 0, 4 bytes at 4
  1 0 1  signed 32-bit integer = -502871386, 4 bytes at 8
  1 0 2  unsigned 32-bit integer = 3221225472, 4 bytes at 12
  1 0 3  unsigned 32-bit integer = 0, 4 bytes at 16
  2      time stamp \"end\" = 2024-03-01 00:00:00.5 UTC, 16 bytes at 20
  2 0    cluster of 4 members, 16 bytes at 20
  2 0 0  signed 32-bit integer = 0, 4 bytes at 20
  2 0 1  signed 32-bit integer = -502871296, 4 bytes at 24
  2 0 2  unsigned 32-bit integer = 2147483648, 4 bytes at 28
  2 0 3  unsigned 32-bit integer = 0, 4 bytes at 32
",
    );
}

#[test]
fn the_table_has_a_row_of_count_0() {
    let folder = coat("stamps-table");
    let ran = folder.run(&["check", "--table", "coat.hex"]);
    let rows: Vec<&str> = ran.text().lines().skip(4).take(3).collect();
    let expected = [
        "   2   54    14    34     2     0         43           5",
        "   3   50    20    22     3     4          0           0",
        "   4   03    26     4     4     0          0           0",
    ];
    assert_eq!(rows, expected);
}

#[test]
fn an_explanation_has_the_subtype_and_the_date() {
    let folder = Folder::new("stamps-explain");
    folder.put("types", &named(time_stamp(), b"t"));
    folder.put("data", &hex("FFFFFFFF FFFFFFFF C0000000 00000000"));
    folder.run(&["explain", "types", "data"]).gives(
        "types: 30 bytes, accepted, 6 types
    0  0000  00 1E                      size 30
    2  0002  00                         reserved
    3  0003  54                         code 54, time stamp
    4  0004  00 06                      subtype 6
    6  0006  00 16                        part 0: size 22
    8  0008  00                           reserved
    9  0009  50                           code 50, cluster
   10  000A  00 04                        4 members
   12  000C  00 04                          member 0: size 4
   14  000E  00                             reserved
   15  000F  03                             code 03, signed 32-bit integer
   16  0010  00 04                          member 1: size 4
   18  0012  00                             reserved
   19  0013  03                             code 03, signed 32-bit integer
   20  0014  00 04                          member 2: size 4
   22  0016  00                             reserved
   23  0017  07                             code 07, unsigned 32-bit integer
   24  0018  00 04                          member 3: size 4
   26  001A  00                             reserved
   27  001B  07                             code 07, unsigned 32-bit integer
   28  001C  01 74                      name \"t\"
data: 16 bytes, accepted, 4 pieces
                                        \"t\" time stamp = 1903-12-31 23:59:59.75 UTC
                                          0 cluster of 4 members
    0  0000  FF FF FF FF                    0 signed 32-bit integer = -1
    4  0004  FF FF FF FF                    1 signed 32-bit integer = -1
    8  0008  C0 00 00 00                    2 unsigned 32-bit integer = 3221225472
   12  000C  00 00 00 00                    3 unsigned 32-bit integer = 0
",
    );
    let page = folder.run(&["explain", "--html", "types", "data"]);
    let heading = ">&quot;t&quot; time stamp = 1903-12-31 23:59:59.75 UTC<";
    assert!(page.text().contains(heading), "{}", page.text());
}

/// Seconds and fraction in hexadecimal, and the date.
const DATES: [(&str, &str); 13] = [
    ("0000000000000000 0000000000000000", "1904-01-01 00:00:00"),
    ("FFFFFFFFFFFFFFFF 0000000000000000", "1903-12-31 23:59:59"),
    ("FFFFFFFFFFFFFFFF 8000000000000000", "1903-12-31 23:59:59.5"),
    ("00000000FFFFFFFF 0000000000000000", "2040-02-06 06:28:15"),
    ("0000000100000000 0000000000000000", "2040-02-06 06:28:16"),
    ("FFFFFFFF00000000 0000000000000000", "1767-11-23 17:31:44"),
    ("000000007C25B080 0000000000000000", "1970-01-01 00:00:00"),
    // The ends of year 9999, year 1, year 0.
    ("0000003B7C19F200 0000000000000000", "10000-01-01 00:00:00"),
    ("FFFFFFF20493B980 0000000000000000", "0001-01-01 00:00:00"),
    ("FFFFFFF20493B97F 0000000000000000", "0000-12-31 23:59:59"),
    ("FFFFFFF202B1347F 0000000000000000", "-0001-12-31 23:59:59"),
    // The farthest there are, and the smallest fraction.
    (
        "7FFFFFFFFFFFFFFF FFFFFFFFFFFFFFFF",
        "292277026530-12-04 15:30:07.9999999999999999999457898913757247782996273599565029144287109375",
    ),
    (
        "8000000000000000 0000000000000001",
        "-292277022723-01-25 08:29:52.0000000000000000000542101086242752217003726400434970855712890625",
    ),
];

/// The same date for scripts: a year of four digits as it is, any other with its sign
/// and six digits at least.
fn iso(date: &str) -> String {
    let (day, time) = date.split_once(' ').expect("there is a time of day");
    let (year, day) = day.split_at(day.len() - "-01-01".len());
    let year = match (year.len(), year.strip_prefix('-')) {
        (4, None) => year.to_string(),
        (_, None) => format!("+{year:0>6}"),
        (_, Some(year)) => format!("-{year:0>6}"),
    };
    format!("{year}{day}T{time}Z")
}

#[test]
fn dates_near_and_far() {
    let folder = Folder::new("stamps-dates");
    folder.put("types", &time_stamp());
    for (data, date) in DATES {
        folder.put("data", &hex(data));
        let dump = folder.run(&["dump", "types", "data"]);
        let line = format!("  -    time stamp = {date} UTC, 16 bytes at 0");
        assert_eq!(dump.text().lines().nth(1), Some(&line[..]));
        let explained = folder.run(&["explain", "types", "data"]);
        let line = format!("{:40}time stamp = {date} UTC\n", "");
        assert!(explained.text().contains(&line), "{}", explained.text());
        let time = iso(date);
        let dump = folder.run(&["dump", "types", "data", "--json"]).json();
        assert_eq!(dump.at("parts").list()[0].at("time").text(), time);
        let explained = folder.run(&["explain", "types", "data", "--json"]).json();
        let fields = explained.at("sections").list()[1].at("fields");
        assert_eq!(fields.list()[0].at("time").text(), time);
    }
}

#[test]
fn a_stamp_for_scripts() {
    let folder = Folder::new("stamps-json");
    folder.put("types", &array(1, &time_stamp()));
    folder.put("data", &hex("00000001 FFFFFFFF FFFFFFFE 00000000 00000001"));
    let json = folder.run(&["dump", "types", "data", "--json"]).json();
    let parts = json.at("parts").list();
    assert_eq!(parts.len(), 7);
    let line = concat!(
        r#"{"path":[0],"name":null,"code":84,"type":"time stamp","start":4,"length":16,"#,
        r#""time":"1903-12-31T23:59:58.0000000000000000000542101086242752217003726400434970855712890625Z","#,
        r#""seconds":-2,"fraction":1,"bits":"FFFFFFFFFFFFFFFE0000000000000001"}"#,
    );
    assert_eq!(parts[1], parse(line).expect("it is JSON"));
    let json = folder.run(&["check", "types", "--json"]).json();
    let row = &json.at("rows").list()[1];
    assert_eq!(row.at("type").text(), "time stamp");
    assert_eq!(row.at("count").number(), 0);
}

#[test]
fn a_difference_of_two_parts_of_a_record() {
    let folder = coat("stamps-difference");
    let of = |first: &str, second: &str, line: &str| {
        folder
            .run(&["difference", "coat.hex", "data-coat.hex", first, second])
            .gives(&format!("{line}\n"));
    };
    let coat = "89.75 s = 89 s + 13835058055282163712 x 2^-64 s";
    of("end", "start", coat);
    of("2", "1", coat);
    of("\"end\"", " 1 ", coat);
    of(
        "start",
        "end",
        "-89.75 s = -90 s + 4611686018427387904 x 2^-64 s",
    );
    of("start", "start", "0 s = 0 s + 0 x 2^-64 s");
    let words = [
        "difference",
        "coat.hex",
        "data-coat.hex",
        "1",
        "2",
        "--json",
    ];
    let line = concat!(
        r#"{"number":0,"input":0,"place":0,"seconds":-90,"fraction":4611686018427387904,"#,
        r#""text":"-89.75","bits":"FFFFFFFFFFFFFFA64000000000000000"}"#,
    );
    folder.run(&words).gives(&format!("{line}\n"));
}

/// Two stamps in hexadecimal, the seconds and fraction between them, and their bits.
const DIFFERENCES: [(&str, &str, [&str; 3]); 4] = [
    (
        "0000000000000000 0000000000000000",
        "0000000000000000 0000000000000001",
        [
            "-1",
            "18446744073709551615",
            "FFFFFFFFFFFFFFFFFFFFFFFFFFFFFFFF",
        ],
    ),
    (
        "0000000100000000 0000000000000000",
        "00000000FFFFFFFF 0000000000000000",
        ["1", "0", "00000000000000010000000000000000"],
    ),
    (
        "7FFFFFFFFFFFFFFF 0000000000000000",
        "FFFFFFFFFFFFFFFF 0000000000000001",
        [
            "9223372036854775807",
            "18446744073709551615",
            "7FFFFFFFFFFFFFFFFFFFFFFFFFFFFFFF",
        ],
    ),
    (
        "8000000000000000 0020000000000001",
        "0000000000000000 0000000000000000",
        [
            "-9223372036854775808",
            "9007199254740993",
            "80000000000000000020000000000001",
        ],
    ),
];

#[test]
fn differences_for_scripts() {
    let folder = Folder::new("stamps-differences");
    folder.put("types", &time_stamp());
    for (first, second, [seconds, fraction, bits]) in DIFFERENCES {
        folder.put("first", &hex(first));
        folder.put("second", &hex(second));
        let words = ["difference", "types", "first", "-", "types", "second", "-"];
        let json = folder.run(&[&words[..], &["--json"]].concat()).json();
        let numbers = ["number", "input", "place"].map(|name| json.at(name).number());
        assert_eq!(numbers, [0, 0, 0]);
        assert_eq!(json.at("seconds"), &Json::Number(seconds.into()));
        assert_eq!(json.at("fraction"), &Json::Number(fraction.into()));
        assert_eq!(json.at("bits").text(), bits);
    }
}

#[test]
fn a_difference_of_two_records() {
    let folder = coat("stamps-records");
    folder.put("stamp", &time_stamp());
    folder.put("data", &hex("00000000 E206CAA6 C0000000 00000001"));
    folder
        .run(&[
            "difference",
            "stamp",
            "data",
            "-",
            "coat.hex",
            "data-coat.hex",
            "start",
        ])
        .gives(
            "0.0000000000000000000542101086242752217003726400434970855712890625 s \
             = 0 s + 1 x 2^-64 s\n",
        );
    folder
        .run(&[
            "difference",
            "coat.hex",
            "data-coat.hex",
            "start",
            "stamp",
            "data",
            "",
        ])
        .gives(
            "-0.0000000000000000000542101086242752217003726400434970855712890625 s \
             = -1 s + 18446744073709551615 x 2^-64 s\n",
        );
}

#[test]
fn paths_in_one_word_have_spaces_between_their_steps() {
    let folder = Folder::new("stamps-paths");
    let member = |name: &[u8]| named(array(1, &time_stamp()), name);
    let names: [&[u8]; 4] = [b"a b", b"-", b"\x1B\"", b"c\"d"];
    folder.put("types", &cluster(&names.map(member)));
    let one = |second: u8| {
        let mut data = hex("00000001 00000000 00000000 00000000 00000000");
        data[11] = second;
        data
    };
    folder.put("data", &[one(1), one(2), one(4), one(8)].concat());
    for (first, second, seconds) in [
        ("\"a b\" 0", "\"-\" 0", "-1"),
        (" - 0", "\"a b\" 0", "1"),
        ("\"\\x1B\\\"\" 0", "0 0", "3"),
        ("c\"d  0", "2\t0", "4"),
    ] {
        let ran = folder.run(&["difference", "types", "data", first, second]);
        ran.gives(&format!("{seconds} s = {seconds} s + 0 x 2^-64 s\n"));
    }
}

#[test]
fn a_path_that_leads_to_no_stamp_is_trouble() {
    let folder = coat("stamps-else");
    let of = |first: &str, second: &str, line: &str| {
        folder
            .run(&["difference", "coat.hex", "data-coat.hex", first, second])
            .troubles(&format!("coat.hex: {line}"));
    };
    let no = |path: &str, there: &str| {
        format!("the path {path} leads to no time stamp but to this: {there}")
    };
    of("id", "start", &no("id", "unsigned 32-bit integer \"id\""));
    of("start", "0", &no("0", "unsigned 32-bit integer \"id\""));
    of("-", "start", &no("-", "cluster of 3 members"));
    of("end 0", "start", &no("end 0", "cluster of 4 members"));
    of("end", "1 0 1", &no("1 0 1", "signed 32-bit integer"));
    let names = "there are \"id\", \"start\", \"end\"";
    of(
        "began",
        "end",
        &format!("no member has the name began; {names}"),
    );
    of("\"end", "end", "\"end is no name in quotes");
    of(
        "end x",
        "end",
        "x is no part of a time stamp, whose one part is 0",
    );
    let ran = folder.run(&[
        "difference",
        "coat.hex",
        "data-coat.hex",
        "id",
        "end",
        "--json",
    ]);
    assert_eq!(ran.status, 2);
    assert_eq!(ran.json().at("trouble").text(), ran.complaint());
}

#[test]
fn stamps_turn_as_their_integers_do() {
    let folder = coat("stamps-little");
    let words = ["little", "coat.hex", "data-coat.hex", "-o", "little.hex"];
    folder.run(&words).writes("little.hex: 36 bytes written");
    folder
        .run(&["view", "coat.hex", "little.hex", "start"])
        .gives("# 16 bytes at 4\n0000 0000 A6CA 06E2 0000 00C0 0000 0000\n");
    let words = ["big", "coat.hex", "little.hex", "-o", "big.hex"];
    folder.run(&words).writes("big.hex: 36 bytes written");
    let dump = |data: &str| {
        let ran = folder.run(&["dump", "coat.hex", data]);
        ran.text()
            .split_once('\n')
            .expect("it has lines")
            .1
            .to_string()
    };
    assert_eq!(dump("big.hex"), dump("data-coat.hex"));
}
