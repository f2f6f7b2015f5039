//! The numbers of documents 01 and 02 whose limits must be met: each with the values
//! at which it is counted.

/// A number that is counted.
#[derive(Clone, Copy)]
pub enum Of {
    Length,
    TooLong,
    Rows,
    Start,
    Size,
    Items,
    ItemLength,
    FillAfter,
    WrongFillAfter,
    Pairs,
    Base,
    Exponent,
    Dimensions,
    Members,
    NameLength,
    NamePlace,
    LastName,
    Left,
    HighSize,
    WrongSize,
    Foreign,
    Subtype,
    WrongItems,
    WrongPairs,
    WrongDimensions,
    WrongMembers,
    FirstBase,
    WrongBases,
    FirstWord,
    WrongWords,
    Behind,
    DataLength,
    DataTooLong,
    Pieces,
    Characters,
    Elements,
    LeftOver,
    Writer,
    Reader,
    Given,
    At40,
    At42,
    At43,
    At44,
    Book,
    NoBook,
    Capacity,
    WrongCapacity,
    InUse,
    BadEntry,
    At60,
    TooFew,
    StillFree,
}

type Line = (Of, &'static str, &'static [u32]);

/// Every number, in the order of the enum.
pub const LINES: [Line; 53] = [
    (Of::Length, "bytes", &[4, 6, 4090, 4092, 4094, 4096]),
    (Of::TooLong, "bytes refused", &[4097, 4098, 4099]),
    (Of::Rows, "rows", &[1, 2, 3, 254, 255, 256]),
    (Of::Start, "start", &[0, 6, 10, 22, 4086, 4088, 4090, 4092]),
    (Of::Size, "size", &[4, 6, 8, 4088, 4090, 4092, 4094, 4096]),
    (Of::Items, "items", &[1, 2, 254, 255, 256, 257, 4089, 4090]),
    (
        Of::ItemLength,
        "length of an item",
        &[0, 1, 2, 253, 254, 255],
    ),
    (
        Of::FillAfter,
        "fill byte after items",
        &[1, 3, 253, 255, 257, 4089],
    ),
    (Of::WrongFillAfter, "and not zero", &[1, 3, 253, 255, 257]),
    (Of::Pairs, "pairs", &[1, 2, 3, 4, 5, 6, 7, 8, 9]),
    (Of::Base, "base index", &[0, 1, 2, 3, 4, 5, 6, 7, 8]),
    (Of::Exponent, "exponent", &[0, 1, 0x7FFF, 0x8000, 0xFFFF]),
    (Of::Dimensions, "dimensions", &[1, 2, 3, 4]),
    (Of::Members, "members", &[1, 2, 254, 255]),
    (
        Of::NameLength,
        "length of a name",
        &[0, 1, 2, 253, 254, 255],
    ),
    (Of::NamePlace, "place of a name", &[5, 9, 4091, 4093, 4095]),
    (
        Of::LastName,
        "length of a name that ends at 4,096",
        &[0, 1, 2, 253, 254, 255],
    ),
    (Of::Left, "bytes left, with 2", &[0, 1, 2, 3]),
    (Of::HighSize, "size, with 3", &[0x8000, 0x8001, 0xFFFF]),
    (Of::WrongSize, "size, with 4", &[0, 1, 2, 3, 5, 0x7FFF]),
    (
        Of::Foreign,
        "code, with 5",
        &[
            0x00, 0x0F, 0x14, 0x18, 0x1F, 0x20, 0x22, 0x2F, 0x31, 0x3F, 0x41, 0x4F, 0x51, 0x53,
            0x55, 0xFF,
        ],
    ),
    (
        Of::Subtype,
        "subtype, with 5",
        &[0, 3, 5, 7, 8, 9, 0x0106, 0x0600, 0xFFFF],
    ),
    (Of::WrongItems, "items, with 9", &[0]),
    (
        Of::WrongPairs,
        "pairs, with 9",
        &[0, 10, 11, 256, 265, 0xFFFF],
    ),
    (
        Of::WrongDimensions,
        "dimensions, with 9",
        &[0, 5, 6, 256, 260, 0xFFFF],
    ),
    (Of::WrongMembers, "members, with 9", &[0]),
    (Of::FirstBase, "pair, with 10", &[0, 1, 2, 3, 4, 5, 6, 7, 8]),
    (Of::WrongBases, "wrong pairs, with 10", &[1, 2, 3, 4, 5]),
    (Of::FirstWord, "dimension, with 10", &[0, 1, 2, 3]),
    (Of::WrongWords, "wrong dimensions, with 10", &[1, 2, 3, 4]),
    (Of::Behind, "bytes behind, with 12", &[1, 2, 3, 4]),
    (
        Of::DataLength,
        "bytes of data",
        &[1, 2, 65534, 65535, 65536],
    ),
    (Of::DataTooLong, "bytes of data refused", &[65537, 65538]),
    (Of::Pieces, "pieces", &[1, 2, 3, 65533]),
    (
        Of::Characters,
        "characters",
        &[0, 1, 31, 32, 33, 255, 256, 65532],
    ),
    (Of::Elements, "elements", &[0, 1, 2, 255, 256, 65532]),
    (Of::LeftOver, "bytes left over", &[1, 2, 8]),
    (Of::Writer, "members of a writer", &[1, 2, 254, 255]),
    (Of::Reader, "members of a reader", &[1, 2, 254, 255]),
    (Of::Given, "bytes of a record given", &[1, 2, 65535, 65536]),
    (Of::At40, "member, with 40", &[0, 1, 2, 253, 254]),
    (Of::At42, "member, with 42", &[0, 1, 2, 253, 254]),
    (Of::At43, "member, with 43", &[0, 1, 2, 252, 253]),
    (Of::At44, "member, with 44", &[0, 1, 2, 253, 254]),
    (
        Of::Book,
        "bytes of a book",
        &[4, 5, 20, 65534, 65535, 65536],
    ),
    (
        Of::NoBook,
        "bytes of a book refused",
        &[0, 1, 2, 3, 65537, 65538],
    ),
    (Of::Capacity, "capacity", &[0, 1, 2, 3, 4094, 4095]),
    (
        Of::WrongCapacity,
        "capacity, with 63",
        &[0, 1, 2, 3, 4095, 4096, 65535],
    ),
    (Of::InUse, "entries in use", &[0, 1, 2, 3, 1819, 1820]),
    (Of::BadEntry, "entry, with 63", &[0, 1, 2, 3, 9]),
    (Of::At60, "entry, with 60", &[0, 1, 2, 1818, 1819]),
    (Of::TooFew, "bytes too few, with 62", &[1, 2, 20]),
    (Of::StillFree, "bytes left free", &[0, 1, 2]),
];

/// The most values that a number is counted at.
const MOST: usize = 16;

/// How often each value was met.
pub struct Lines([[u64; MOST]; LINES.len()]);

impl Lines {
    pub fn new() -> Lines {
        Lines([[0; MOST]; LINES.len()])
    }

    #[inline]
    pub fn count(&mut self, of: Of, value: usize) {
        let values = LINES[of as usize].2.iter();
        let place = values
            .map(|&known| known as usize)
            .position(|known| known == value);
        if let Some(place) = place {
            self.0[of as usize][place] += 1;
        }
    }

    pub fn add(&mut self, other: &Lines) {
        let others = other.0.iter().flatten();
        for (count, more) in self.0.iter_mut().flatten().zip(others) {
            *count += more;
        }
    }

    /// Says which values were met less often than this.
    pub fn wrong(&self, least: u64) -> Vec<String> {
        let mut wrong = Vec::new();
        for ((_, what, values), counts) in LINES.iter().zip(&self.0) {
            for (value, count) in values.iter().zip(counts) {
                if *count < least {
                    wrong.push(format!("too seldom: {what} {value}: {count}"));
                }
            }
        }
        wrong
    }

    /// A line for each number: its values, each with how often it was met.
    pub fn print(&self) {
        println!("a number's value: how often");
        for ((of, what, values), counts) in LINES.iter().zip(&self.0) {
            let mut line = format!("{what:36}");
            for (value, count) in values.iter().zip(counts) {
                line += &match of {
                    Of::Foreign => format!("{value:02X}: {count}  "),
                    _ => format!("{value}: {count}  "),
                };
            }
            println!("{}", line.trim_end());
        }
    }
}
