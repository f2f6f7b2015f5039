//! The chosen cases as the text of the file, in the formatter's layout.

mod head;

use reference::Answer;

use super::asked::{Asked, Given, Told};
use super::case::Case;
use super::choice::Table;
use crate::entry::Entry;
use crate::tree::StatedRow;

/// The whole file.
pub fn of(tables: &[Table]) -> String {
    let count = tables.iter().map(|table| table.cases.len()).sum();
    let facts = tables.iter().map(fact);
    head::of(count) + &facts.collect::<String>()
}

/// The cases of an entry as one fact.
fn fact(table: &Table) -> String {
    let head::Fact {
        name,
        about,
        unfolding,
    } = head::fact(table.entry);
    let rows: Vec<String> = table.cases.iter().map(row).collect();
    let rows = rows.join("\n    × ");
    let proofs = vec!["refl"; table.cases.len()].join(", ");
    format!("\n-- {about}\npub {name} :\n    {rows}\nunfolding {unfolding}\n{name} = ({proofs})\n")
}

/// A case as an equation, and behind it what its faults alone would earn.
fn row(case: &Case) -> String {
    let equation = format!("({} ≡ {})", question(&case.asked), answer(case));
    let beaten: Vec<String> = case.beaten.iter().copied().map(numbers).collect();
    match &beaten[..] {
        [] => equation,
        _ => format!("{equation}  -- over {}", beaten.join(", ")),
    }
}

fn question(asked: &Asked) -> String {
    let [first, second, data] = [&asked.first, &asked.second, &asked.data].map(|bytes| hex(bytes));
    let (path, room) = (path(&asked.path), room(asked.room));
    match asked.entry {
        Entry::CheckDescriptor => format!("descriptor_check {first}"),
        Entry::Compare => format!("comparison {first} {second}"),
        Entry::NormalForm => format!("normal_form {first} {room}"),
        Entry::CheckData => format!("data_check {first} {data}"),
        Entry::View => format!("located {first} {data} {path}"),
        Entry::ReadValue => format!("told (read_value {first} {data} {path})"),
        Entry::ToLittleEndian => format!("to_little_endian {first} {data} {room}"),
        Entry::FromLittleEndian => format!("from_little_endian {first} {data} {room}"),
        _ => format!("resolved {first} {second} {data} {room}"),
    }
}

/// What the question comes to, whole.
fn answer(case: &Case) -> String {
    let Told { answer, given } = &case.told;
    let (three, place) = (numbers(*answer), answer.place);
    match (given, answer.number) {
        (Given::Nothing, 0) => format!("accepted {place}"),
        (Given::Nothing, _) => format!("refusal {three}"),
        (Given::Rows(rows), 0) => {
            format!("with_rows {place} ({})", listed(rows.iter().map(table_row)))
        }
        (Given::Rows(_), _) => format!("no_rows {three}"),
        (Given::Equal(equal), 0) => format!("both_compared {equal}"),
        (Given::Equal(_), _) => format!("not_compared {three}"),
        (Given::Part { start, length }, 0) => format!("part_at {start} {length}"),
        (Given::Part { .. }, _) => format!("no_part {three}"),
        (Given::Value { kind, bits }, 0) => format!("(accepted {place}, {kind}, 0x{bits:X})"),
        (Given::Value { kind, bits }, _) => format!("(refusal {three}, {kind}, {bits})"),
        (Given::Output(out), 0) => format!("wrote {place} {}", hex(out)),
        (Given::Output(_), _) => format!("unwritten {} {three}", room(case.asked.room)),
    }
}

/// An answer's number, input and place.
fn numbers(answer: Answer) -> String {
    format!("{} {} {}", answer.number, answer.input, answer.place)
}

fn table_row(row: &StatedRow) -> String {
    let [code, start, size, depth, count, place, length] = row;
    format!("row 0x{code:02X} {start} {size} {depth} {count} {place} {length}")
}

/// Bytes by their number and as one number.
fn hex(bytes: &[u8]) -> String {
    let digits: String = bytes.iter().map(|byte| format!("{byte:02X}")).collect();
    match bytes.len() {
        0 => "[]".into(),
        length => format!("(hex {length} 0x{digits})"),
    }
}

fn path(steps: &[u32]) -> String {
    match steps {
        [] => "[]".into(),
        _ => format!("({})", listed(steps.iter().map(u32::to_string))),
    }
}

fn listed(items: impl Iterator<Item = String>) -> String {
    items.map(|item| item + " ∷ ").collect::<String>() + "[]"
}

fn room(length: usize) -> String {
    format!("(room {length})")
}
