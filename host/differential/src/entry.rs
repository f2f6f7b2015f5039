//! The library's entries.

/// An entry, and the column in which its answers are counted.
#[derive(Clone, Copy, PartialEq, Eq)]
pub enum Entry {
    CheckDescriptor,
    Compare,
    NormalForm,
    CheckData,
    View,
    ReadValue,
    ToLittleEndian,
    FromLittleEndian,
    ReadRecord,
    StampDifference,
    StoreCheck,
    StoreAdd,
    StoreFind,
    StoreList,
}

/// Every entry with a short word for it, in the order of the enum.
pub const ENTRIES: [(Entry, &str); 14] = [
    (Entry::CheckDescriptor, "check"),
    (Entry::Compare, "compare"),
    (Entry::NormalForm, "normal"),
    (Entry::CheckData, "data"),
    (Entry::View, "view"),
    (Entry::ReadValue, "value"),
    (Entry::ToLittleEndian, "to little"),
    (Entry::FromLittleEndian, "from little"),
    (Entry::ReadRecord, "record"),
    (Entry::StampDifference, "difference"),
    (Entry::StoreCheck, "book"),
    (Entry::StoreAdd, "add"),
    (Entry::StoreFind, "find"),
    (Entry::StoreList, "list"),
];

impl Entry {
    /// Whether the entry judges a book.
    fn reads_book(self) -> bool {
        matches!(
            self,
            Entry::StoreCheck | Entry::StoreAdd | Entry::StoreFind | Entry::StoreList
        )
    }

    /// Whether the entry judges a descriptor that is lent.
    fn reads_descriptors(self) -> bool {
        self == Entry::StoreAdd || self != Entry::StampDifference && !self.reads_book()
    }

    /// Whether the entry judges data that is lent.
    pub fn reads_data(self) -> bool {
        let descriptors_alone = matches!(
            self,
            Entry::CheckDescriptor | Entry::Compare | Entry::NormalForm
        );
        self.reads_descriptors() && !descriptors_alone
    }

    /// Whether the entry takes two descriptors.
    pub fn reads_two(self) -> bool {
        matches!(self, Entry::Compare | Entry::ReadRecord)
    }

    /// Whether the entry fills an output.
    pub fn writes(self) -> bool {
        matches!(
            self,
            Entry::NormalForm
                | Entry::ToLittleEndian
                | Entry::FromLittleEndian
                | Entry::ReadRecord
                | Entry::StoreList
        )
    }

    /// Whether document 01, with requests 1, 2 and 4 of document 02, lets the entry
    /// answer this number for this input.
    pub fn can_answer(self, number: u32, input: u32) -> bool {
        match (number, input) {
            (0, 0) => true,
            (1..=12, 1) => self.reads_descriptors(),
            (1..=12, 2) => self.reads_two(),
            (20..=23 | 25, 3) => self.reads_data(),
            (30, 4) => matches!(self, Entry::View | Entry::ReadValue),
            (31, 4) => self == Entry::ReadValue,
            (32, 4) => self == Entry::StampDifference,
            (40, 2) => self == Entry::ReadRecord,
            (41, 1) | (42..=44, 2) => matches!(self, Entry::ReadRecord | Entry::StoreAdd),
            (50, 4) => self.writes(),
            (60..=62, 4) => self == Entry::StoreAdd,
            (63, 4) => self.reads_book(),
            (64, 4) => self == Entry::StoreFind,
            _ => false,
        }
    }
}
