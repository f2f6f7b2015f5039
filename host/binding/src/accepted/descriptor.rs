//! A descriptor that was accepted.

use std::hash::{Hash, Hasher};

use super::{Data, Refusal, written};
use crate::{Row, check_descriptor, compare, from_little_endian, normal_form};

/// A descriptor that the library has accepted, with its table.
///
/// Two are equal when their trees are, names too, reserved bytes apart; the
/// library says so.
///
/// ```
/// use kerbcanopy::accepted::Descriptor;
///
/// let integer = Descriptor::new([0x00, 0x04, 0x00, 0x03])?;
/// let reserved = Descriptor::new([0x00, 0x04, 0x40, 0x03])?;
/// assert_eq!(integer, reserved);
/// assert_eq!(reserved.normal_form(), integer.as_bytes());
/// # Ok::<(), kerbcanopy::accepted::Refusal>(())
/// ```
#[derive(Clone, Debug)]
pub struct Descriptor {
    bytes: Box<[u8]>,
    rows: Box<[Row]>,
}

impl Descriptor {
    /// Reads any bytes as a descriptor. Refused: 1 to 12 with input 1.
    pub fn new(bytes: impl AsRef<[u8]>) -> Result<Descriptor, Refusal> {
        let bytes = bytes.as_ref();
        let checked = check_descriptor(bytes);
        let count = Refusal::unless(checked.answer)?;
        Ok(Descriptor {
            bytes: bytes.into(),
            rows: checked.rows[..count].into(),
        })
    }

    /// The bytes as they came.
    pub fn as_bytes(&self) -> &[u8] {
        &self.bytes
    }

    /// The table: a row for each descriptor in this one, in order of first byte,
    /// the top first.
    ///
    /// ```
    /// # use kerbcanopy::accepted::Descriptor;
    /// let rig = Descriptor::new(b"\x00\x0E\x00\x50\x00\x01\x00\x08\x00\x07\x02id\x00")?;
    /// let [top, id] = rig.rows() else { panic!() };
    /// assert_eq!((top.code, top.count), (0x50, 1));
    /// assert_eq!((id.code, id.start, id.depth), (0x07, 6, 2));
    /// # Ok::<(), kerbcanopy::accepted::Refusal>(())
    /// ```
    pub fn rows(&self) -> &[Row] {
        &self.rows
    }

    /// The name of the row of this number, from 0; nothing where there is no such
    /// row or no name. An empty name is a name.
    ///
    /// ```
    /// # use kerbcanopy::accepted::Descriptor;
    /// let rig = Descriptor::new(b"\x00\x0E\x00\x50\x00\x01\x00\x08\x00\x07\x02id\x00")?;
    /// assert_eq!(rig.name(0), None);
    /// assert_eq!(rig.name(1), Some(&b"id"[..]));
    /// # Ok::<(), kerbcanopy::accepted::Refusal>(())
    /// ```
    pub fn name(&self, row: usize) -> Option<&[u8]> {
        let row = self.rows.get(row).filter(|row| row.name_place != 0)?;
        let start = usize::from(row.name_place);
        Some(&self.bytes[start..start + usize::from(row.name_length)])
    }

    /// The same descriptor with every reserved byte zero. Two are equal exactly
    /// when these are the same bytes.
    pub fn normal_form(&self) -> Vec<u8> {
        let form = written(self.bytes.len(), |out| self.normal_form_into(out));
        form.expect("an accepted descriptor has a normal form as long as itself")
    }

    /// Writes the normal form to the front of `out`, and gives its length. Refused:
    /// 50 with input 4 where `out` is too small, and nothing is written.
    pub fn normal_form_into(&self, out: &mut [u8]) -> Result<usize, Refusal> {
        Refusal::unless(normal_form(&self.bytes, out))
    }

    /// Takes bytes as data under this descriptor. Refused: 20 to 23 or 25 with input 3.
    pub fn data<'a>(&'a self, bytes: &'a [u8]) -> Result<Data<'a>, Refusal> {
        Data::new(self, bytes)
    }

    /// The data whose little-endian form is lent. Refused: 20 to 23 or 25 with input 3.
    ///
    /// ```
    /// # use kerbcanopy::accepted::Descriptor;
    /// let integer = Descriptor::new([0x00, 0x04, 0x00, 0x03])?;
    /// assert_eq!(integer.big_endian(&[9, 0, 0, 0])?, [0, 0, 0, 9]);
    /// # Ok::<(), kerbcanopy::accepted::Refusal>(())
    /// ```
    pub fn big_endian(&self, little: &[u8]) -> Result<Vec<u8>, Refusal> {
        written(little.len(), |out| self.big_endian_into(little, out))
    }

    /// Writes the data whose little-endian form is lent to the front of `out`, and
    /// gives its length. Refused: 20 to 23 or 25 with input 3, or 50 with input 4
    /// where `out` is too small; nothing is written.
    pub fn big_endian_into(&self, little: &[u8], out: &mut [u8]) -> Result<usize, Refusal> {
        Refusal::unless(from_little_endian(&self.bytes, little, out))
    }
}

impl PartialEq for Descriptor {
    fn eq(&self, other: &Descriptor) -> bool {
        compare(&self.bytes, &other.bytes).equal
    }
}

impl Eq for Descriptor {}

impl Hash for Descriptor {
    fn hash<H: Hasher>(&self, to: &mut H) {
        self.normal_form().hash(to);
    }
}

impl AsRef<[u8]> for Descriptor {
    fn as_ref(&self) -> &[u8] {
        &self.bytes
    }
}

impl TryFrom<&[u8]> for Descriptor {
    type Error = Refusal;

    fn try_from(bytes: &[u8]) -> Result<Descriptor, Refusal> {
        Descriptor::new(bytes)
    }
}
