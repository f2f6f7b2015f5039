//! The layout of every struct here is the one that the header has: both are held
//! against the figures of `host/c/layout.def`.

use std::collections::BTreeMap;
use std::mem::{align_of, offset_of, size_of};

use crate::raw::{Answer, Checked, Difference, Part, RawCompared, Row, Value};

const FIGURES: &str = include_str!("../../c/layout.def");

/// A struct's size and alignment, or a field's offset and size, by the name that
/// the header gives it.
type Layout = BTreeMap<String, [usize; 2]>;

/// The figures as the file states them.
fn stated() -> Layout {
    let lines = FIGURES.lines();
    let figure = |line: &str| {
        let line = line.strip_suffix(')')?;
        let (kind, figures) = line.split_once('(')?;
        let parts: Vec<&str> = figures.split(", ").collect();
        let number = |text: &str| text.parse().expect("a number of bytes");
        match (kind, &parts[..]) {
            ("SIZE", [of, size, alignment]) => {
                Some((of.to_string(), [number(size), number(alignment)]))
            }
            ("FIELD", [of, field, offset, size]) => {
                Some((format!("{of}.{field}"), [number(offset), number(size)]))
            }
            _ => None,
        }
    };
    lines.filter_map(figure).collect()
}

/// The size of the field that this borrows.
fn size_of_field<T, F>(_: fn(&T) -> &F) -> usize {
    size_of::<F>()
}

/// Adds a struct with its fields.
macro_rules! add {
    ($layout:ident, $name:literal, $type:ty, $($field:ident),*) => {
        $layout.insert($name.to_string(), [size_of::<$type>(), align_of::<$type>()]);
        $($layout.insert(
            format!("{}.{}", $name, stringify!($field)),
            [offset_of!($type, $field), size_of_field(|of: &$type| &of.$field)],
        );)*
    };
}

/// The figures as the binding has them.
fn declared() -> Layout {
    let mut layout = Layout::new();
    add!(layout, "kc_answer", Answer, number, input, place);
    add!(
        layout,
        "kc_row",
        Row,
        code,
        start,
        size,
        depth,
        count,
        name_place,
        name_length
    );
    add!(layout, "kc_checked", Checked, answer, rows);
    add!(layout, "kc_compared", RawCompared, answer, equal);
    add!(layout, "kc_part", Part, answer, start, length);
    add!(layout, "kc_value", Value, answer, kind, bits);
    add!(
        layout,
        "kc_difference",
        Difference,
        answer,
        seconds,
        fraction
    );
    layout
}

#[test]
fn every_struct_lies_as_the_header_has_it() {
    assert_eq!(declared(), stated());
}
