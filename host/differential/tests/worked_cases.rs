//! The worked cases of docs/CASES.md, read out of its tables, on the library and
//! on the second implementation.

use std::collections::HashMap;
use std::fs;
use std::path::Path;

type Cells = Vec<String>;

/// The rows of the tables under each heading of the worked cases; what stands
/// before the first heading are the names of bytes.
fn tables() -> HashMap<String, Vec<Cells>> {
    let path = Path::new(env!("CARGO_MANIFEST_DIR")).join("../../docs/CASES.md");
    let cases = fs::read_to_string(path).expect("it can be read");
    let mut tables: HashMap<String, Vec<Cells>> = HashMap::new();
    let mut heading = String::new();
    for line in cases.lines() {
        if let Some(words) = line.strip_prefix("## ") {
            heading = words.into();
        } else if let Some(row) = line.strip_prefix("| ") {
            let row = row.trim_end().trim_end_matches('|');
            let cells = row.split('|').map(|cell| cell.trim().into()).collect();
            tables.entry(heading.clone()).or_default().push(cells);
        }
    }
    for rows in tables.values_mut() {
        // The head of the table.
        rows.remove(0);
    }
    tables
}

struct Names(HashMap<String, Vec<u8>>);

impl Names {
    fn read(rows: &[Cells]) -> Names {
        let mut names = Names(HashMap::new());
        for row in rows {
            let bytes = names.bytes(&row[1]);
            names.0.insert(row[0].clone(), bytes);
        }
        names
    }

    /// The bytes that a cell spells: names, and digits between backquotes.
    fn bytes(&self, cell: &str) -> Vec<u8> {
        if cell == "no bytes" {
            return Vec::new();
        }
        let mut bytes = Vec::new();
        for (index, text) in cell.split('`').enumerate() {
            if index % 2 == 1 {
                bytes.extend(digits(&repeated(text)));
            } else {
                for name in text.split_whitespace() {
                    bytes.extend(&self.0[name]);
                }
            }
        }
        bytes
    }
}

/// `(00)*3` as `000000`.
fn repeated(text: &str) -> String {
    let Some((before, rest)) = text.split_once('(') else {
        return text.into();
    };
    let (inner, rest) = rest.split_once(")*").expect("it is closed");
    let end = rest.find(|c: char| !c.is_ascii_digit());
    let (times, after) = rest.split_at(end.unwrap_or(rest.len()));
    let times = times.parse().expect("it is a number");
    before.to_string() + &inner.repeat(times) + &repeated(after)
}

fn digits(text: &str) -> Vec<u8> {
    let digits: Vec<u8> = text.bytes().filter(|byte| *byte != b' ').collect();
    let byte = |pair: &[u8]| {
        let pair = std::str::from_utf8(pair).expect("it is ASCII");
        u8::from_str_radix(pair, 16).expect("it is hexadecimal")
    };
    digits.chunks(2).map(byte).collect()
}

fn path(cell: &str) -> Vec<u32> {
    let steps = cell.split_whitespace().filter(|word| *word != "none");
    steps
        .map(|step| step.parse().expect("it is a number"))
        .collect()
}

fn room(cell: &str) -> Vec<u8> {
    vec![0xEE; cell.parse().expect("it is a number")]
}

fn listed(numbers: &[u32]) -> String {
    match numbers {
        [] => "none".into(),
        _ => numbers
            .iter()
            .map(u32::to_string)
            .collect::<Vec<_>>()
            .join(" "),
    }
}

/// The four numbers of a time stamp's data.
fn halves(data: &[u8]) -> [u32; 4] {
    let data: [u8; 16] = data.try_into().expect("a time stamp has 16 bytes");
    let whole = u128::from_be_bytes(data);
    [96, 64, 32, 0].map(|behind| (whole >> behind) as u32)
}

/// What an implementation answers to the question of a row, in the words of its
/// table: the cells behind the question, without the fact.
macro_rules! answers {
    ($name:ident, $implementation:ident) => {
        fn $name(heading: &str, row: &[String], names: &Names) -> Vec<String> {
            use $implementation::{Answer, Row, Stamp};
            let words =
                |answer: Answer| format!("{} {} {}", answer.number, answer.input, answer.place);
            let digits = |bytes: &[u8]| bytes.iter().map(|byte| format!("{byte:02X}")).collect();
            let input = |cell: usize| names.bytes(&row[cell]);
            match heading {
                "Descriptor check" => {
                    let checked = $implementation::check_descriptor(&input(1));
                    let numbers = |row: &Row| {
                        format!(
                            "({:02X},{},{},{},{},{},{})",
                            row.code,
                            row.start,
                            row.size,
                            row.depth,
                            row.count,
                            row.name_place,
                            row.name_length
                        )
                    };
                    let rows: Vec<_> = checked.rows.iter().map(numbers).collect();
                    let zero = "(00,0,0,0,0,0,0)";
                    let used = rows
                        .iter()
                        .position(|row| row == zero)
                        .unwrap_or(rows.len());
                    assert!(rows[used..].iter().all(|row| row == zero));
                    // Left out for length where there are many.
                    let shown = if row[3].is_empty() && checked.answer.number == 0 {
                        0
                    } else {
                        used
                    };
                    vec![words(checked.answer), rows[..shown].join(" ")]
                }
                "Compare" => {
                    let compared = $implementation::compare(&input(1), &input(2));
                    let equal = if compared.equal { "yes" } else { "no" };
                    vec![words(compared.answer), equal.into()]
                }
                "Normal form" => {
                    let mut out = room(&row[2]);
                    let answer = $implementation::normal_form(&input(1), &mut out);
                    vec![words(answer), digits(&out)]
                }
                "Data check" => vec![words($implementation::check_data(&input(1), &input(2)))],
                "View" => {
                    let part = $implementation::view(&input(1), &input(2), &path(&row[3]));
                    vec![
                        words(part.answer),
                        format!("{}, {}", part.start, part.length),
                    ]
                }
                "Value" => {
                    let value = $implementation::read_value(&input(1), &input(2), &path(&row[3]));
                    let kind = value.kind.to_string();
                    vec![words(value.answer), kind, format!("{:X}", value.bits)]
                }
                "Little-endian" => {
                    let mut out = room(&row[4]);
                    let answer = match row[1].as_str() {
                        "to" => $implementation::to_little_endian(&input(2), &input(3), &mut out),
                        _ => $implementation::from_little_endian(&input(2), &input(3), &mut out),
                    };
                    vec![words(answer), digits(&out)]
                }
                "Difference of two time stamps" => {
                    let stamp = |cell: usize| {
                        let [seconds_high, seconds_low, fraction_high, fraction_low] =
                            halves(&input(cell));
                        Stamp {
                            seconds_high: seconds_high as i32,
                            seconds_low: seconds_low as i32,
                            fraction_high,
                            fraction_low,
                        }
                    };
                    let found = $implementation::stamp_difference(stamp(1), stamp(2));
                    let seconds = found.seconds.to_string();
                    vec![
                        words(found.answer),
                        seconds,
                        format!("{:X}", found.fraction),
                    ]
                }
                "Book check" => vec![words($implementation::store_check(&input(1)))],
                "Add to a book" => {
                    let mut book = input(1);
                    let answer = $implementation::store_add(&mut book, &input(2), &input(3));
                    vec![words(answer), digits(&book)]
                }
                "Find in a book" => {
                    let part = $implementation::store_find(&input(1), path(&row[2])[0]);
                    vec![
                        words(part.answer),
                        format!("{}, {}", part.start, part.length),
                    ]
                }
                "List of a book" => {
                    let mut places = vec![5; row[2].parse().expect("it is a number")];
                    let answer = $implementation::store_list(&input(1), &mut places);
                    vec![words(answer), listed(&places)]
                }
                _ => {
                    let mut out = room(&row[4]);
                    let answer =
                        $implementation::read_record(&input(1), &input(2), &input(3), &mut out);
                    vec![words(answer), digits(&out)]
                }
            }
        }
    };
}

answers!(library, kerbcanopy);
answers!(second, reference);

#[test]
fn both_answer_what_the_document_says() {
    let tables = tables();
    let names = Names::read(&tables[""]);
    let mut cases = 0;
    for (heading, rows) in &tables {
        if heading.is_empty() {
            continue;
        }
        for row in rows {
            for seen in [library(heading, row, &names), second(heading, row, &names)] {
                let end = row.len() - 1;
                let mut expected = row[end - seen.len()..end].to_vec();
                if matches!(
                    heading.as_str(),
                    "Normal form"
                        | "Little-endian"
                        | "Record in a reader's shape"
                        | "Add to a book"
                ) {
                    let bytes = names.bytes(&expected[1]);
                    expected[1] = bytes.iter().map(|byte| format!("{byte:02X}")).collect();
                }
                assert_eq!(seen, expected, "{heading}: {}", row[0]);
            }
            cases += 1;
        }
    }
    assert!(cases > 300, "only {cases} cases are in the document");
}
