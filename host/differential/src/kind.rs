//! The kinds of cases.

/// What a case is about.
#[derive(Clone, Copy, PartialEq, Eq)]
pub enum Area {
    Descriptor,
    Data,
    Record,
    Interval,
    Store,
}

#[derive(Clone, Copy, PartialEq, Eq)]
pub enum Kind {
    Limit,
    Tree,
    Tight,
    Damaged,
    Pointed,
    Wild,
    Headed,
    Random,
    DataLimit,
    Flattened,
    Long,
    DamagedData,
    StrayData,
    Misread,
    RecordLimit,
    Record,
    Agreeing,
    WideRecord,
    DamagedRecord,
    NoRecord,
    StampLimit,
    Stamps,
    Summed,
    Apart,
    BookLimit,
    Book,
    LongBook,
    DamagedBook,
    SpoiledBook,
    StrayBook,
}

/// A kind with its words and the column in which it is counted.
pub struct Known {
    pub kind: Kind,
    pub area: Area,
    pub short: &'static str,
    pub words: &'static str,
    /// The numbers that it is there to meet.
    pub meets: &'static [u32],
}

const fn known(
    kind: Kind,
    area: Area,
    [short, words]: [&'static str; 2],
    meets: &'static [u32],
) -> Known {
    Known {
        kind,
        area,
        short,
        words,
        meets,
    }
}

/// The refusals of descriptors, and of data.
const OF_DESCRIPTORS: [u32; 12] = [1, 2, 3, 4, 5, 6, 7, 8, 9, 10, 11, 12];
const OF_DATA: [u32; 5] = [20, 21, 22, 23, 25];

/// Every kind, in the order of the enum.
pub const KINDS: [Known; 30] = {
    use Area::{Data, Descriptor, Interval, Record, Store};
    [
        known(
            Kind::Limit,
            Descriptor,
            ["limits", "limits of descriptors and their neighbours"],
            &[0, 5, 8, 9, 10, 11],
        ),
        known(Kind::Tree, Descriptor, ["trees", "well-formed trees"], &[0]),
        known(
            Kind::Tight,
            Descriptor,
            ["tight", "trees with several numbers at their limits"],
            &[0, 1, 6, 7, 9, 10],
        ),
        known(
            Kind::Damaged,
            Descriptor,
            ["damaged", "damaged trees"],
            &OF_DESCRIPTORS,
        ),
        known(
            Kind::Pointed,
            Descriptor,
            ["pointed", "faults at a known place"],
            &[5, 8, 9, 10, 11],
        ),
        known(
            Kind::Wild,
            Descriptor,
            ["beyond", "trees beyond the limits"],
            &[0, 1, 6, 7, 9, 10],
        ),
        known(
            Kind::Headed,
            Descriptor,
            ["headed", "random bytes behind a header"],
            &[0, 2, 3, 4, 5, 8, 9, 10, 11],
        ),
        known(
            Kind::Random,
            Descriptor,
            ["random", "random bytes"],
            &[1, 2, 3, 4, 5],
        ),
        known(
            Kind::DataLimit,
            Data,
            ["limits", "limits of data and their neighbours"],
            &[0, 21, 22, 23, 25],
        ),
        known(Kind::Flattened, Data, ["filled", "well-formed data"], &[0]),
        known(
            Kind::Long,
            Data,
            ["long", "data about as long as it can be"],
            &[0, 20],
        ),
        known(
            Kind::DamagedData,
            Data,
            ["damaged", "damaged data"],
            &[0, 21, 22, 23, 25],
        ),
        known(
            Kind::StrayData,
            Data,
            ["random", "random bytes as data"],
            &OF_DATA,
        ),
        known(
            Kind::Misread,
            Data,
            ["misread", "data under another or no descriptor"],
            &OF_DESCRIPTORS,
        ),
        known(
            Kind::RecordLimit,
            Record,
            ["limits", "limits of records and their neighbours"],
            &[0, 40, 42, 44],
        ),
        known(
            Kind::Record,
            Record,
            ["asked", "records for readers made from their writers"],
            &[0, 40, 42, 43, 44],
        ),
        known(
            Kind::Agreeing,
            Record,
            ["agreeing", "records that agree on a reader's members"],
            &[0, 40, 42, 43, 44],
        ),
        known(
            Kind::WideRecord,
            Record,
            ["wide", "records of about as many members as there can be"],
            &[0, 20, 40, 42, 43, 44],
        ),
        known(
            Kind::DamagedRecord,
            Record,
            ["damaged", "damaged records"],
            &[0, 1, 2, 3, 4, 5, 6, 7, 8, 9, 10, 11, 12, 21, 22, 23, 25],
        ),
        known(
            Kind::NoRecord,
            Record,
            ["no cluster", "writers and readers that are no clusters"],
            &[40, 41],
        ),
        known(
            Kind::StampLimit,
            Interval,
            ["limits", "limits of time stamps"],
            &[0, 32],
        ),
        known(
            Kind::Stamps,
            Interval,
            ["any", "any two time stamps"],
            &[0, 32],
        ),
        known(
            Kind::Summed,
            Interval,
            ["summed", "a time stamp and a time more or less"],
            &[0],
        ),
        known(
            Kind::Apart,
            Interval,
            [
                "apart",
                "time stamps in one second, or as far apart as can be",
            ],
            &[0, 32],
        ),
        known(
            Kind::BookLimit,
            Store,
            ["limits", "limits of books and their neighbours"],
            &[0, 63],
        ),
        known(Kind::Book, Store, ["kept", "well-formed books"], &[0]),
        known(
            Kind::LongBook,
            Store,
            ["long", "books about as long as they can be"],
            &[0],
        ),
        known(
            Kind::DamagedBook,
            Store,
            ["damaged", "damaged books"],
            &[0, 63],
        ),
        known(
            Kind::SpoiledBook,
            Store,
            ["spoiled", "books with a record that none takes"],
            &[0, 63],
        ),
        known(
            Kind::StrayBook,
            Store,
            ["random", "random bytes as books"],
            &[0, 63],
        ),
    ]
};

impl Kind {
    pub fn known(self) -> &'static Known {
        let known = &KINDS[self as usize];
        debug_assert!(known.kind == self);
        known
    }

    pub fn words(self) -> &'static str {
        self.known().words
    }

    /// The column of this kind among those of its area.
    pub fn column(self) -> usize {
        let before = KINDS[..self as usize].iter();
        before.filter(|kind| kind.area == self.known().area).count()
    }
}
