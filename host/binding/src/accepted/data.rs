//! Data that was accepted, bound to its descriptor.

use super::{Descriptor, Refusal, Value, written};
use crate::{check_data, read_record, read_value, to_little_endian, view};

/// Data that the library has accepted under a descriptor.
#[derive(Clone, Copy, Debug)]
pub struct Data<'a> {
    descriptor: &'a Descriptor,
    bytes: &'a [u8],
    pieces: usize,
}

impl<'a> Data<'a> {
    pub(super) fn new(descriptor: &'a Descriptor, bytes: &'a [u8]) -> Result<Data<'a>, Refusal> {
        let pieces = Refusal::unless(check_data(descriptor.as_bytes(), bytes))?;
        Ok(Data {
            descriptor,
            bytes,
            pieces,
        })
    }

    /// The descriptor that the data stands under.
    pub fn descriptor(&self) -> &'a Descriptor {
        self.descriptor
    }

    /// The bytes as they came.
    pub fn as_bytes(&self) -> &'a [u8] {
        self.bytes
    }

    /// How many pieces the data has: scalars, whole strings, the sizes of arrays.
    pub fn pieces(&self) -> usize {
        self.pieces
    }

    /// The part that a path leads to, length and size words included. A step is a
    /// member's number in a cluster or a flat element's number in an array, from 0, or
    /// 0 in a time stamp; no step is the whole data. Refused: 30 with input 4 where a
    /// step leads nowhere.
    ///
    /// ```
    /// # use kerbcanopy::accepted::Descriptor;
    /// let text = Descriptor::new(b"\x00\x08\x00\x30\xFF\xFF\xFF\xFF")?;
    /// let data = text.data(b"\x00\x00\x00\x02ok")?;
    /// assert_eq!(data.view(&[])?, b"\x00\x00\x00\x02ok");
    /// assert_eq!(data.view(&[0]).unwrap_err().number, 30);
    /// # Ok::<(), kerbcanopy::accepted::Refusal>(())
    /// ```
    pub fn view(&self, path: &[u32]) -> Result<&'a [u8], Refusal> {
        let part = view(self.descriptor.as_bytes(), self.bytes, path);
        Refusal::unless(part.answer)?;
        Ok(&self.bytes[part.start..part.start + part.length])
    }

    /// The number that a path leads to. Refused: 30 with input 4 where a step leads
    /// nowhere, 31 with input 4 where there is no single number.
    ///
    /// ```
    /// # use kerbcanopy::accepted::{Descriptor, Value};
    /// let single = Descriptor::new([0x00, 0x04, 0x00, 0x09])?;
    /// assert_eq!(single.data(&[0x41, 0xA4, 0, 0])?.value(&[])?, Value::Single(20.5));
    /// # Ok::<(), kerbcanopy::accepted::Refusal>(())
    /// ```
    pub fn value(&self, path: &[u32]) -> Result<Value, Refusal> {
        let read = read_value(self.descriptor.as_bytes(), self.bytes, path);
        Refusal::unless(read.answer)?;
        Ok(Value::of(read))
    }

    /// The little-endian form: each number turned around where it stands.
    ///
    /// ```
    /// # use kerbcanopy::accepted::Descriptor;
    /// let integer = Descriptor::new([0x00, 0x04, 0x00, 0x03])?;
    /// assert_eq!(integer.data(&[0, 0, 0, 9])?.little_endian(), [9, 0, 0, 0]);
    /// # Ok::<(), kerbcanopy::accepted::Refusal>(())
    /// ```
    pub fn little_endian(&self) -> Vec<u8> {
        let form = written(self.bytes.len(), |out| self.little_endian_into(out));
        form.expect("accepted data has a little-endian form as long as itself")
    }

    /// Writes the little-endian form to the front of `out`, and gives its length.
    /// Refused: 50 with input 4 where `out` is too small, and nothing is written.
    pub fn little_endian_into(&self, out: &mut [u8]) -> Result<usize, Refusal> {
        Refusal::unless(to_little_endian(
            self.descriptor.as_bytes(),
            self.bytes,
            out,
        ))
    }

    /// The members that a reader asks for: for each of the reader's members in
    /// order, the bytes of the one member here of that name and an equal type. They
    /// are data under the reader's descriptor.
    ///
    /// Refused: 40 with input 2 where the reader is no cluster of members with
    /// distinct names that are not empty; 41 with input 1 where this is no cluster;
    /// 42 to 44 with input 2 for the first member that is missing, doubled or of
    /// another type.
    pub fn read(&self, reader: &Descriptor) -> Result<Vec<u8>, Refusal> {
        written(self.bytes.len(), |out| self.read_into(reader, out))
    }

    /// Writes what [`Data::read`] gives to the front of `out`, and gives its length;
    /// `out` beyond it keeps its bytes. Refused: as there, then 50 with input 4
    /// where `out` is too small; nothing is written.
    ///
    /// ```
    /// # use kerbcanopy::accepted::Descriptor;
    /// let rig = Descriptor::new(b"\x00\x14\x00\x50\x00\x02\x00\x06\x00\x02\x01t\x00\x08\x00\x07\x02id\x00")?;
    /// let reader = Descriptor::new(b"\x00\x0E\x00\x50\x00\x01\x00\x08\x00\x07\x02id\x00")?;
    /// let mut id = [0; 4];
    /// rig.data(&[0x00, 0x19, 0x00, 0x00, 0x00, 0x09])?.read_into(&reader, &mut id)?;
    /// assert_eq!(u32::from_be_bytes(id), 9);
    /// # Ok::<(), kerbcanopy::accepted::Refusal>(())
    /// ```
    pub fn read_into(&self, reader: &Descriptor, out: &mut [u8]) -> Result<usize, Refusal> {
        Refusal::unless(read_record(
            self.descriptor.as_bytes(),
            reader.as_bytes(),
            self.bytes,
            out,
        ))
    }
}
