//! The identifier of a rig's record, by its name and type. Arguments: a file with
//! the rig's descriptor, a file with the record.

use std::error::Error;
use std::{env, fs, process};

use kerbcanopy::accepted::{Descriptor, Refusal};

/// What is asked for: a cluster of one unsigned 32-bit integer named "id".
const READER: &[u8] = b"\x00\x0E\x00\x50\x00\x01\x00\x08\x00\x07\x02id\x00";

/// The identifier, or the first thing that is wrong.
fn identifier(rig: &[u8], data: &[u8]) -> Result<u32, Refusal> {
    let rig = Descriptor::new(rig)?;
    let reader = Descriptor::new(READER)?;
    let mut id = [0; 4];
    rig.data(data)?.read_into(&reader, &mut id)?;
    Ok(u32::from_be_bytes(id))
}

fn main() -> Result<(), Box<dyn Error>> {
    let files: Vec<_> = env::args_os().skip(1).collect();
    let [rig, data] = files.as_slice() else {
        return Err("usage: blank DESCRIPTOR DATA".into());
    };
    match identifier(&fs::read(rig)?, &fs::read(data)?) {
        Ok(id) => println!("blank {id}"),
        Err(refusal) => {
            println!("{refusal}");
            process::exit(1);
        }
    }
    Ok(())
}
