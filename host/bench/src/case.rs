//! What is timed: a question about one input, with its place in the table or in
//! a curve.

use crate::asked::{Asked, Repeated, copied};

/// A row of the table, or a point of a curve.
pub struct Case {
    pub entry: &'static str,
    pub what: String,
    pub asked: Asked,
    /// A copy of what is read or written, the floor for whatever touches all of
    /// it; none for a question that is refused early.
    pub copy: Option<Repeated>,
    /// The point's place along its curve, in rows or bytes.
    pub along: Option<usize>,
}

impl Case {
    /// A question that touches that many bytes.
    pub fn new(entry: &'static str, what: impl Into<String>, bytes: usize, asked: Asked) -> Case {
        Case {
            entry,
            what: what.into(),
            asked,
            copy: Some(copied(bytes)),
            along: None,
        }
    }

    /// A question that is refused before most is looked at.
    pub fn early(entry: &'static str, what: impl Into<String>, asked: Asked) -> Case {
        let case = Case::new(entry, what, 0, asked);
        Case { copy: None, ..case }
    }

    /// The same as a point of a curve.
    pub fn at(self, along: usize) -> Case {
        let along = Some(along);
        Case { along, ..self }
    }

    /// What the row is called.
    pub fn name(&self) -> String {
        format!("{}: {}", self.entry, self.what)
    }
}
