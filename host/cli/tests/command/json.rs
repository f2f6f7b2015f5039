//! `--json`: one line for every command and every outcome.

use crate::common::descriptors::{
    array, cluster, descriptor, enumeration, named, quantity, string,
};
use crate::common::json::{Json, parse};
use crate::common::{Folder, hex};

/// Runs the words with `--json` and expects this line.
#[track_caller]
fn gives(folder: &Folder, words: &[&str], line: &str) {
    let ran = folder.run(&[words, &["--json"]].concat());
    ran.json();
    ran.gives(&format!("{line}\n"));
}

fn rig(test: &str) -> Folder {
    let names = [
        "rig.hex",
        "reader.hex",
        "data/rig.hex",
        "data/rig-little.hex",
    ];
    Folder::with_samples(test, &names)
}

#[test]
fn the_rows_of_a_descriptor() {
    let folder = Folder::new("json-check");
    let mode = named(enumeration(0x15, &[b"on", b"\xE9\x1B"]), b"mode");
    folder.put(
        "types",
        &cluster(&[mode, quantity(0x19, &[(6, 1), (2, -1)])]),
    );
    let line = concat!(
        r#"{"number":0,"input":0,"place":3,"rows":["#,
        r#"{"code":80,"start":0,"size":38,"depth":1,"count":2,"name_place":0,"name_length":0,"#,
        r#""type":"cluster of 2 members","name":null},"#,
        r#"{"code":21,"start":6,"size":18,"depth":2,"count":2,"name_place":19,"name_length":4,"#,
        r#""type":"8-bit enumeration of 2 items","name":"mode","items":["on","\u00e9\u001b"]},"#,
        r#"{"code":25,"start":24,"size":14,"depth":2,"count":2,"name_place":0,"name_length":0,"#,
        r#""type":"single quantity in K s^-1","name":null,"units":"K s^-1"}]}"#,
    );
    gives(&folder, &["check", "types"], line);
    gives(&folder, &["check", "types", "--table"], line);
}

#[test]
fn equal_or_where_they_differ() {
    let folder = rig("json-compare");
    let equal = r#"{"number":0,"input":0,"place":0,"equal":true}"#;
    gives(&folder, &["compare", "rig.hex", "rig.hex"], equal);
    let of = |code| cluster(&[named(cluster(&[descriptor(code, &[])]), b"in")]);
    folder.put("a", &of(0x05));
    folder.put("b", &of(0x21));
    let ran = folder.run(&["compare", "a", "b", "--json"]);
    let line = concat!(
        r#"{"number":0,"input":0,"place":0,"equal":false,"difference":{"path":[0,0],"#,
        r#""names":["in",null],"what":"the type","#,
        r#""first":{"place":15,"text":"unsigned 8-bit integer"},"#,
        r#""second":{"place":15,"text":"Boolean"}}}"#,
    );
    assert_eq!(ran.text(), format!("{line}\n"));
    ran.json();
    assert_eq!((ran.status, ran.complaint()), (3, "a and b are not equal"));
}

#[test]
fn bytes_that_are_given() {
    let folder = rig("json-bytes");
    let normal = concat!(
        r#"{"number":0,"input":0,"place":20,"#,
        r#""bytes":"00140050000200060002017400080007026964"#,
        r#"00"}"#,
    );
    gives(&folder, &["normal", "rig.hex"], normal);
    let little = r#"{"number":0,"input":0,"place":6,"bytes":"190009000000"}"#;
    gives(&folder, &["little", "rig.hex", "data-rig.hex"], little);
    let big = r#"{"number":0,"input":0,"place":6,"bytes":"001900000009"}"#;
    gives(&folder, &["big", "rig.hex", "data-rig-little.hex"], big);
    let words = ["read", "rig.hex", "reader.hex", "data-rig.hex"];
    let read = r#"{"number":0,"input":0,"place":4,"bytes":"00000009"}"#;
    gives(&folder, &words, read);
    let out = r#"{"number":0,"input":0,"place":4,"bytes":"00000009","out":"o\\x0A"}"#;
    gives(&folder, &[&words[..], &["-o", "o\n"]].concat(), out);
    assert_eq!(folder.read("o\n"), [0, 0, 0, 9]);
}

#[test]
fn data_values_and_views() {
    let folder = rig("json-data");
    let data =
        |command, steps: &[&'static str]| [&[command, "rig.hex", "data-rig.hex"], steps].concat();
    gives(
        &folder,
        &data("data", &[]),
        r#"{"number":0,"input":0,"place":2}"#,
    );
    let value = concat!(
        r#"{"number":0,"input":0,"place":0,"kind":"signed","value":25,"text":"25","#,
        r#""bits":"0000000000000019"}"#,
    );
    gives(&folder, &data("value", &["t"]), value);
    let view = r#"{"number":0,"input":0,"place":0,"start":2,"length":4,"bytes":"00000009"}"#;
    gives(&folder, &data("view", &["id"]), view);
    let out = r#"{"number":0,"input":0,"place":0,"bytes":"00000009","out":"id"}"#;
    gives(&folder, &data("view", &["id", "-o", "id"]), out);
    assert_eq!(folder.read("id"), [0, 0, 0, 9]);
}

/// A code, data, and the fields of its value.
const VALUES: [(u8, &str, &str); 9] = [
    (
        0x01,
        "FF",
        r#""signed","value":-1,"text":"-1","bits":"FFFFFFFFFFFFFFFF""#,
    ),
    (
        0x05,
        "FF",
        r#""unsigned","value":255,"text":"255","bits":"00000000000000FF""#,
    ),
    (
        0x09,
        "3DCCCCCD",
        r#""single","value":0.1,"text":"0.1","bits":"3DCCCCCD""#,
    ),
    (
        0x09,
        "7FC00001",
        r#""single","value":null,"text":"NaN 7FC00001","bits":"7FC00001""#,
    ),
    (
        0x0A,
        "8000000000000000",
        r#""double","value":-0.0,"text":"-0.0","bits":"8000000000000000""#,
    ),
    (
        0x0A,
        "7FF0000000000000",
        r#""double","value":null,"text":"inf","bits":"7FF0000000000000""#,
    ),
    (
        0x21,
        "01",
        r#""flag","value":true,"text":"true","bits":"0000000000000001""#,
    ),
    (
        0x21,
        "FF",
        r#""flag","value":true,"text":"true","bits":"0000000000000001""#,
    ),
    (
        0x21,
        "00",
        r#""flag","value":false,"text":"false","bits":"0000000000000000""#,
    ),
];

#[test]
fn values_of_every_kind() {
    let folder = Folder::new("json-values");
    for (code, data, line) in VALUES {
        folder.put("types", &descriptor(code, &[]));
        folder.put("data", &hex(data));
        let line = format!("{{\"number\":0,\"input\":0,\"place\":0,\"kind\":{line}}}");
        gives(&folder, &["value", "types", "data"], &line);
    }
}

/// Some parts of a dump, by their number in the list.
const PARTS: [(usize, &str); 7] = [
    (
        0,
        r#"{"path":[],"name":null,"code":80,"type":"cluster of 4 members","start":0,"length":28}"#,
    ),
    (
        1,
        r#"{"path":[0],"name":"m","code":21,"type":"8-bit enumeration of 2 items","start":0,"length":1,"kind":"unsigned","value":1,"text":"1","bits":"0000000000000001","item":"off"}"#,
    ),
    (
        2,
        r#"{"path":[1],"name":null,"code":48,"type":"string","start":1,"length":6,"characters":"\"\u001b"}"#,
    ),
    (
        3,
        r#"{"path":[2],"name":null,"code":64,"type":"array of 1 dimension","start":7,"length":13,"sizes":[9]}"#,
    ),
    (
        11,
        r#"{"path":[2,7],"name":null,"code":5,"type":"unsigned 8-bit integer","start":18,"length":1,"kind":"unsigned","value":8,"text":"8","bits":"0000000000000008"}"#,
    ),
    (12, r#"{"path":[2],"more":1,"start":19,"length":1}"#),
    (
        13,
        r#"{"path":[3],"name":null,"code":12,"type":"complex single","start":20,"length":8,"text":"1.0 and -0.0 i","bytes":"3F80000080000000"}"#,
    ),
];

#[test]
fn every_part_of_a_dump() {
    let folder = Folder::new("json-dump");
    let mode = named(enumeration(0x15, &[b"on", b"off"]), b"m");
    let list = array(1, &descriptor(0x05, &[]));
    folder.put(
        "types",
        &cluster(&[mode, string(), list, descriptor(0x0C, &[])]),
    );
    let data = "01 00000002 221B 00000009 010203040506070809 3F800000 80000000";
    folder.put("data", &hex(data));
    let json = folder.run(&["dump", "types", "data", "--json"]).json();
    assert_eq!(json.fields(), ["number", "input", "place", "parts"]);
    let parts = json.at("parts").list();
    assert_eq!(parts.len(), 14);
    for (index, line) in PARTS {
        assert_eq!(parts[index], parse(line).expect("it is JSON"));
    }
    // The ninth element stands where its count stood.
    let all = folder
        .run(&["dump", "types", "data", "--json", "--all"])
        .json();
    let all = all.at("parts").list();
    assert_eq!((all.len(), &all[..12]), (14, &parts[..12]));
    assert_eq!((all[12].at("text").text(), &all[13]), ("9", &parts[13]));
}

#[test]
fn the_sections_of_an_explanation() {
    let folder = rig("json-explain");
    let one = concat!(
        r#"{"number":0,"input":0,"place":1,"file":"i","#,
        r#""sections":[{"title":"descriptor","answer":{"number":0,"input":0,"place":1,"file":"i"},"#,
        r#""fields":[{"start":0,"length":2,"depth":0,"sort":"size","text":"size 4"},"#,
        r#"{"start":2,"length":1,"depth":0,"sort":"reserved","text":"reserved"},"#,
        r#"{"start":3,"length":1,"depth":0,"sort":"code","text":"code 03, signed 32-bit integer"}]}]}"#,
    );
    folder.put("i", &descriptor(0x03, &[]));
    gives(&folder, &["explain", "i"], one);
    folder.put("short", &hex("0019"));
    let ran = folder.run(&["explain", "rig.hex", "short", "--json"]);
    assert_eq!(ran.status, 1);
    let json = ran.json();
    let data = &json.at("sections").list()[1];
    let answer = data.at("answer");
    let refused = folder.run(&["data", "rig.hex", "short", "--json"]).json();
    assert_eq!(answer, &refused);
    assert_eq!(json.at("facts"), refused.at("facts"));
    let last = data
        .at("fields")
        .list()
        .last()
        .expect("there are fields")
        .clone();
    assert_eq!(last.at("sort"), &Json::Text("fault".into()));
    assert_eq!(
        (last.at("start").number(), last.at("length").number()),
        (2, 0)
    );
}

#[test]
fn an_explanation_in_a_file() {
    let folder = rig("json-explain-file");
    let shown = folder.run(&["explain", "rig.hex", "--json"]);
    gives(
        &folder,
        &["explain", "rig.hex", "-o", "e.json"],
        r#"{"number":0,"input":0,"place":3,"file":"rig.hex","out":"e.json"}"#,
    );
    assert_eq!(folder.read("e.json"), shown.out);
    folder.put("short", &hex("0019"));
    let words = ["explain", "rig.hex", "short", "-o", "e.json", "--json"];
    let json = folder.run(&words).json();
    assert_eq!(json.at("number").number(), 21);
    assert_eq!(json.at("out"), &Json::Text("e.json".into()));
}

#[test]
fn trouble_and_wrong_uses() {
    let folder = rig("json-trouble");
    for words in [
        &["check", "missing", "--json"][..],
        &["--json", "check"],
        &["--json"],
        &["look\u{1b}é", "--json"],
        &["value", "rig.hex", "data-rig.hex", "x\n", "--json"],
        &["normal", "rig.hex", "--json", "-o", "-"],
        &["normal", "rig.hex", "--json", "-o", "no/such"],
        &["explain", "rig.hex", "--json", "--html"],
    ] {
        let ran = folder.run(words);
        assert_eq!(ran.status, 2, "{words:?}");
        let trouble = Json::Object(vec![("trouble".into(), Json::Text(ran.complaint().into()))]);
        assert_eq!(ran.json(), trouble, "{words:?}");
    }
}

#[test]
fn a_word_that_is_no_option_asks_for_nothing() {
    let folder = rig("json-word");
    folder
        .run(&["check", "--", "--json"])
        .troubles("--json: No such file or directory (os error 2)");
    folder.put("--json", &descriptor(0x03, &[]));
    folder
        .run(&["check", "--", "--json"])
        .gives("--json: accepted, 1 type\n  signed 32-bit integer, 4 bytes at 0\n");
    folder
        .run(&["normal", "missing", "-o", "--json"])
        .troubles("missing: No such file or directory (os error 2)");
}
