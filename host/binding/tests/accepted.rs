//! What a Rust program meets: types for what was accepted, refusals as errors,
//! and the library's own answers behind both.

use std::collections::HashSet;
use std::error::Error;

use kerbcanopy::accepted::{Descriptor, Refusal, Value};

const RIG: &[u8] = b"\x00\x14\x00\x50\x00\x02\x00\x06\x00\x02\x01t\x00\x08\x00\x07\x02id\x00";
const READER: &[u8] = b"\x00\x0E\x00\x50\x00\x01\x00\x08\x00\x07\x02id\x00";
const DATA: &[u8] = &[0, 0x19, 0, 0, 0, 9];
/// A rig whose second member is a Boolean, and a reader of that.
const LAMP: &[u8] = b"\x00\x16\x00\x50\x00\x02\x00\x08\x00\x07\x02id\x00\x00\x08\x00\x21\x03lit";
const LIT: &[u8] = b"\x00\x0E\x00\x50\x00\x01\x00\x08\x00\x21\x03lit";

fn refusal(number: u32, input: u32, place: u32) -> Refusal {
    Refusal {
        number,
        input,
        place,
    }
}

fn plain(code: u8) -> Descriptor {
    Descriptor::new([0, 4, 0, code]).expect("the code is carried")
}

#[test]
fn a_descriptor_has_the_rows_in_use_and_their_names() -> Result<(), Refusal> {
    let rig = Descriptor::new(RIG)?;
    let whole = kerbcanopy::check_descriptor(RIG);
    assert_eq!(rig.rows(), &whole.rows[..3]);
    let names: Vec<_> = (0..4).map(|row| rig.name(row)).collect();
    assert_eq!(names, [None, Some(&b"t"[..]), Some(&b"id"[..]), None]);
    let unnamed = Descriptor::new([0, 6, 0, 3, 0, 0])?;
    assert_eq!(unnamed.name(0), Some(&b""[..]));
    assert_eq!(
        (rig.as_bytes(), Descriptor::try_from(RIG)?),
        (RIG, rig.clone())
    );
    Ok(())
}

#[test]
fn equality_is_the_library_s() -> Result<(), Refusal> {
    let mut reserved = RIG.to_vec();
    reserved[14] = 0x40;
    let [first, second] = [RIG, &reserved].map(Descriptor::try_from);
    let (first, second) = (first?, second?);
    assert_eq!(first, second);
    assert_ne!(first, Descriptor::new(READER)?);
    assert_eq!(second.normal_form(), RIG);
    let both = HashSet::from([first, second]);
    assert_eq!(both.len(), 1);
    Ok(())
}

#[test]
fn data_is_bound_to_its_descriptor() -> Result<(), Refusal> {
    let rig = Descriptor::new(RIG)?;
    let data = rig.data(DATA)?;
    assert_eq!((data.pieces(), data.as_bytes()), (2, DATA));
    assert_eq!(data.descriptor(), &rig);
    assert_eq!(data.view(&[1])?, &DATA[2..]);
    assert_eq!(data.view(&[])?.as_ptr(), DATA.as_ptr());
    assert_eq!(data.value(&[0])?, Value::Signed(25));
    assert_eq!(data.little_endian(), [0x19, 0, 9, 0, 0, 0]);
    assert_eq!(rig.big_endian(&data.little_endian())?, DATA);
    Ok(())
}

#[test]
fn every_kind_of_value() -> Result<(), Refusal> {
    let cases: [(u8, &[u8], Value); 10] = [
        (0x01, &[0x80], Value::Signed(-128)),
        (0x04, &[0xFF; 8], Value::Signed(-1)),
        (0x05, &[0x80], Value::Unsigned(128)),
        (0x08, &[0xFF; 8], Value::Unsigned(u64::MAX)),
        (0x09, &[0x41, 0xA4, 0, 0], Value::Single(20.5)),
        (0x0A, &[0xC0, 0, 0, 0, 0, 0, 0, 0], Value::Double(-2.0)),
        (0x21, &[1], Value::Flag(true)),
        (0x21, &[2], Value::Flag(true)),
        (0x21, &[0xFF], Value::Flag(true)),
        (0x21, &[0], Value::Flag(false)),
    ];
    for (code, data, value) in cases {
        assert_eq!(plain(code).data(data)?.value(&[])?, value);
    }
    let quiet = plain(0x09);
    let Value::Single(single) = quiet.data(&[0x7F, 0x80, 0, 1])?.value(&[])? else {
        panic!("code 09 is a single");
    };
    assert_eq!(single.to_bits(), 0x7F80_0001);
    Ok(())
}

/// Document 02, CR 2: whatever a Boolean's byte is, it is handed on as it came.
#[test]
fn a_boolean_keeps_its_byte() -> Result<(), Refusal> {
    let lamp = Descriptor::new(LAMP)?;
    let lit = Descriptor::new(LIT)?;
    for byte in 0..=u8::MAX {
        let bytes = [0, 0, 0, 9, byte];
        let data = lamp.data(&bytes)?;
        assert_eq!(data.value(&[1])?, Value::Flag(byte != 0));
        assert_eq!(data.view(&[1])?, [byte]);
        assert_eq!(data.little_endian(), [9, 0, 0, 0, byte]);
        assert_eq!(lamp.big_endian(&data.little_endian())?, bytes);
        assert_eq!(data.read(&lit)?, [byte]);
    }
    Ok(())
}

#[test]
fn a_record_in_a_vector_or_in_a_lent_slice() -> Result<(), Refusal> {
    let (rig, reader) = (Descriptor::new(RIG)?, Descriptor::new(READER)?);
    let data = rig.data(DATA)?;
    assert_eq!(data.read(&reader)?, [0, 0, 0, 9]);
    assert_eq!(data.read(&rig)?, DATA);
    let mut out = [0xA5; 6];
    assert_eq!(data.read_into(&reader, &mut out)?, 4);
    assert_eq!(out, [0, 0, 0, 9, 0xA5, 0xA5]);
    Ok(())
}

#[test]
fn refusals_are_the_library_s() -> Result<(), Refusal> {
    let (rig, reader) = (Descriptor::new(RIG)?, Descriptor::new(READER)?);
    let data = rig.data(DATA)?;
    assert_eq!(Descriptor::new([]).unwrap_err(), refusal(2, 1, 0));
    assert_eq!(Descriptor::new([0; 4097]).unwrap_err(), refusal(1, 1, 0));
    assert_eq!(rig.data(&DATA[..5]).unwrap_err(), refusal(21, 3, 2));
    assert_eq!(rig.big_endian(&DATA[..5]).unwrap_err(), refusal(21, 3, 2));
    assert_eq!(data.view(&[1, 0]).unwrap_err(), refusal(30, 4, 1));
    assert_eq!(data.value(&[2]).unwrap_err(), refusal(30, 4, 0));
    assert_eq!(data.value(&[]).unwrap_err(), refusal(31, 4, 0));
    assert_eq!(data.read(&plain(3)).unwrap_err(), refusal(40, 2, 0));
    let integer = plain(3);
    let lone = integer.data(&[0; 4])?;
    assert_eq!(lone.read(&reader).unwrap_err(), refusal(41, 1, 0));
    let narrow = reader.data(&[0; 4])?;
    assert_eq!(narrow.read(&rig).unwrap_err(), refusal(42, 2, 0));
    Ok(())
}

#[test]
fn too_little_room_changes_nothing() -> Result<(), Refusal> {
    let (rig, reader) = (Descriptor::new(RIG)?, Descriptor::new(READER)?);
    let data = rig.data(DATA)?;
    let mut out = [0xA5; 3];
    let refused = [
        (rig.normal_form_into(&mut out), 20),
        (data.little_endian_into(&mut out), 6),
        (rig.big_endian_into(&data.little_endian(), &mut out), 6),
        (data.read_into(&reader, &mut out), 4),
        (data.read_into(&reader, &mut []), 4),
    ];
    for (answer, needed) in refused {
        assert_eq!(answer.unwrap_err(), refusal(50, 4, needed));
    }
    assert_eq!(out, [0xA5; 3]);
    Ok(())
}

#[test]
fn a_refusal_is_an_error_that_says_what_it_means() {
    let error: Box<dyn Error + Send + Sync> = Box::new(refusal(21, 3, 2));
    assert_eq!(
        error.to_string(),
        "refused with 21: the data ends inside this piece (input 3, the data; place 2)"
    );
}
