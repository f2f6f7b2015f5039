//! A quick run of the program, which times nothing that a test would look at.

use std::process::{Command, Output};

/// Those that are lent bytes.
const ENTRIES: [&str; 13] = [
    "check_descriptor",
    "compare",
    "normal_form",
    "check_data",
    "to_little_endian",
    "from_little_endian",
    "read_value",
    "view",
    "read_record",
    "store_check",
    "store_add",
    "store_find",
    "store_list",
];

fn run(arguments: &[&str]) -> Output {
    Command::new(env!("CARGO_BIN_EXE_bench"))
        .args(arguments)
        .output()
        .expect("the program starts")
}

/// What a run prints that succeeds.
fn printed(arguments: &[&str]) -> String {
    let output = run(arguments);
    assert!(output.status.success());
    String::from_utf8(output.stdout).expect("its output is text")
}

/// A row as it is printed: entry, name and number.
struct Row {
    entry: String,
    name: String,
    number: u32,
    copied: bool,
}

/// The rows of the first table.
fn rows(text: &str) -> Vec<Row> {
    let table = text.lines().skip_while(|line| !line.starts_with("entry"));
    let table = table
        .skip(1)
        .take_while(|line| !line.starts_with("kerbcanopy and"));
    let rows = table.filter(|line| !line.is_empty()).map(|line| {
        let numbers: Vec<&str> = line[69..].split_whitespace().collect();
        Row {
            entry: line[..19].trim().into(),
            name: line[19..69].trim().into(),
            number: numbers[0].parse().expect("a number"),
            copied: numbers.len() == 5,
        }
    });
    rows.collect()
}

#[test]
fn every_entry_is_accepted_and_refused_early_and_late() {
    let text = printed(&["--quick"]);
    let rows = rows(&text);
    for entry in ENTRIES {
        let own = || rows.iter().filter(|row| row.entry == entry);
        assert!(own().any(|row| row.number == 0 && row.copied), "{entry}");
        assert!(own().any(|row| row.number > 0 && row.copied), "{entry}");
        assert!(own().any(|row| row.number > 0 && !row.copied), "{entry}");
        let growth = text
            .lines()
            .skip_while(|line| !line.starts_with("How cost grows"));
        assert!(
            growth.into_iter().any(|line| line.starts_with(entry)),
            "{entry}"
        );
    }
    let others = rows
        .iter()
        .filter(|row| !ENTRIES.contains(&row.entry.as_str()));
    let mut numbers: Vec<u32> = others
        .inspect(|row| assert_eq!(row.entry, "stamp_difference"))
        .map(|row| row.number)
        .collect();
    numbers.sort();
    numbers.dedup();
    assert_eq!(numbers, [0, 32]);
}

#[test]
fn a_row_is_refused_exactly_where_its_name_says_so() {
    for row in rows(&printed(&["--quick"])) {
        assert_eq!(row.number > 0, row.name.contains("refused"), "{}", row.name);
    }
}

#[test]
fn rows_can_be_chosen_and_put_to_one_side() {
    let chosen = rows(&printed(&["--quick", "--row", "compare: 14 rows"]));
    assert!(chosen.len() > 5 && chosen.iter().all(|row| row.entry == "compare"));
    for side in ["kerbcanopy", "reference"] {
        let arguments = ["--row", "view: ", "--calls", "2", "--side", side];
        assert_eq!(printed(&arguments), "");
    }
}

/// How many points the curves have: four in each line below their heads.
fn points(text: &str) -> usize {
    let growth = text
        .lines()
        .skip_while(|line| !line.starts_with("How cost grows"));
    let growth = growth.take_while(|line| !line.starts_with("Above"));
    let curves = growth.filter(|line| ENTRIES.iter().any(|entry| line.starts_with(entry)));
    4 * curves.count()
}

#[test]
fn every_row_and_every_point_is_drawn() {
    let file = format!("{}/all.svg", env!("CARGO_TARGET_TMPDIR"));
    let text = printed(&["--quick", "--plot", &file]);
    let drawn = std::fs::read_to_string(&file).expect("the picture is there");
    let rows = rows(&text);
    for row in &rows {
        let name = format!(">{}</text>", row.name);
        assert!(drawn.contains(&name), "{}", row.name);
    }
    let dots = drawn.lines().filter(|line| line.starts_with("<circle "));
    assert_eq!(dots.count(), rows.len() + 2 * points(&text));
    assert!(drawn.starts_with("<svg ") && drawn.ends_with("</svg>\n"));
    assert!(!drawn.contains("NaN") && !drawn.contains("inf"));
}

#[test]
fn wrong_arguments_are_refused() {
    for arguments in [
        &["--all"][..],
        &["--row"],
        &["--row", "no row of this name"],
        &["--plot"],
        &[
            "--quick",
            "--row",
            "view: ",
            "--plot",
            "no/folder/of/this/name.svg",
        ],
        &["--calls", "3"],
        &["--side", "reference"],
        &["--calls", "many", "--side", "reference"],
        &["--calls", "3", "--side", "both"],
    ] {
        assert!(!run(arguments).status.success());
    }
}
