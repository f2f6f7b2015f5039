//! The descriptor check compared with a slow reading, and every data question with a
//! slow walk, over descriptors and data by chance.

#[allow(dead_code, reason = "each test program uses a part of it")]
mod naive;

use naive::descriptor::judge;
use naive::random::{Random, any_data, any_type, encode, spoil, spoil_descriptor};
use naive::{Refusal, Type, Walk, find, value};
use reference::{Answer, Part, Value, check_data, check_descriptor, read_value, view};
use reference::{from_little_endian, to_little_endian};

/// Fewer without optimisation, where each takes longer.
const CASES: usize = if cfg!(debug_assertions) {
    20_000
} else {
    200_000
};

fn answer(number: u32, input: u32, place: usize) -> Answer {
    Answer {
        number,
        input,
        place: place as u32,
    }
}

fn of_data(refusal: &Refusal) -> Answer {
    answer(refusal.0, 3, refusal.1)
}

/// Checks both directions of the byte order, with room by chance.
fn same_bytes(of: &Type, descriptor: &[u8], data: &[u8], little: bool, random: &mut Random) {
    let rooms = [data.len(), data.len() + 9, data.len() / 2];
    let room = rooms[random.below(3)];
    let mut out = vec![0xA5; room];
    let given = match little {
        false => to_little_endian(descriptor, data, &mut out),
        true => from_little_endian(descriptor, data, &mut out),
    };
    let (stated, bytes) = match Walk::whole(of, data, little) {
        Err(refusal) => (of_data(&refusal), vec![]),
        Ok(_) if room < data.len() => (answer(50, 4, data.len()), vec![]),
        Ok(walk) => (answer(0, 0, data.len()), walk.reversed),
    };
    assert_eq!(given, stated, "{descriptor:02X?} {data:02X?} {little}");
    let (written, kept) = out.split_at(bytes.len());
    assert!(written == bytes, "{descriptor:02X?} {data:02X?} {little}");
    assert!(kept.iter().all(|byte| *byte == 0xA5));
}

/// Checks a view and a value of data that is refused with `refusal`, if any.
fn same_part(of: &Type, descriptor: &[u8], data: &[u8], path: &[u32], refusal: Option<Answer>) {
    let mut part = Part::default();
    let mut read = Value::default();
    match refusal {
        Some(refusal) => (part.answer, read.answer) = (refusal, refusal),
        None => match find(of, data, path) {
            Err(step) => {
                part.answer = answer(30, 4, step as usize);
                read.answer = part.answer;
            }
            Ok(found) => {
                (part.start, part.length) = (found.start, found.end - found.start);
                match value(found.of, &data[found.start..found.end]) {
                    Some((kind, bits)) => (read.kind, read.bits) = (kind, bits),
                    None => read.answer = answer(31, 4, 0),
                }
            }
        },
    }
    let about = || format!("{descriptor:02X?} {data:02X?} {path:?}");
    assert_eq!(view(descriptor, data, path), part, "{}", about());
    assert_eq!(read_value(descriptor, data, path), read, "{}", about());
}

/// A path by chance, which mostly leads somewhere.
fn any_path(of: &Type, random: &mut Random, sizes: usize) -> Vec<u32> {
    let mut path = vec![];
    let mut at = of;
    while !random.once_in(6) {
        let (parts, part) = match at {
            Type::Cluster(members) => {
                let member = random.below(members.len());
                (member, &members[member])
            }
            Type::Array { element, .. } => (random.below(sizes), &**element),
            Type::Stamp(cluster) => (0, &**cluster),
            Type::Scalar { .. } | Type::Text => break,
        };
        path.push(parts as u32);
        at = part;
    }
    if random.once_in(8) {
        path.push(random.below(4) as u32);
    }
    path
}

/// Puts all questions. Returns the number of the data check's answer.
fn compare(of: &Type, descriptor: &[u8], data: &[u8], sizes: usize, random: &mut Random) -> u32 {
    let walk = Walk::whole(of, data, false);
    let stated = match &walk {
        Ok(walk) => answer(0, 0, walk.pieces as usize),
        Err(refusal) => of_data(refusal),
    };
    let given = check_data(descriptor, data);
    assert_eq!(given, stated, "{descriptor:02X?} {data:02X?}");
    same_bytes(of, descriptor, data, false, random);
    same_bytes(of, descriptor, data, true, random);
    if let Ok(walk) = &walk {
        same_bytes(of, descriptor, &walk.reversed, true, random);
    }
    let refusal = walk.is_err().then_some(stated);
    for _ in 0..2 {
        let path = any_path(of, random, sizes);
        same_part(of, descriptor, data, &path, refusal);
    }
    given.number
}

#[test]
fn small_descriptors_and_data() {
    let mut random = Random(0x9E37_79B9_7F4A_7C15);
    let mut answers = [0; 32];
    for _ in 0..CASES {
        let levels = 1 + random.below(6);
        let of = any_type(&mut random, levels);
        let descriptor = encode(&of, &mut random);
        if check_descriptor(&descriptor).answer.number != 0 {
            continue;
        }
        let mut data = vec![];
        any_data(&of, &mut random, 4, &mut data);
        data.truncate(600);
        spoil(&mut data, &mut random);
        answers[compare(&of, &descriptor, &data, 4, &mut random) as usize] += 1;
    }
    for number in [0, 21, 22, 23, 25] {
        assert!(answers[number] > CASES / 2000, "{number}: {answers:?}");
    }
}

#[test]
fn long_arrays() {
    let mut random = Random(0xD1B5_4A32_D192_ED03);
    let mut answers = [0; 32];
    for case in 0..CASES / 500 {
        let levels = 1 + random.below(3);
        let element = match any_type(&mut random, levels) {
            Type::Array { element, .. } => element,
            element => Box::new(element),
        };
        let dimensions = 1;
        let of = Type::Array {
            dimensions,
            element,
        };
        let descriptor = encode(&of, &mut random);
        let sizes = [300, 3000, 30000][case % 3];
        let mut data = vec![];
        any_data(&of, &mut random, sizes, &mut data);
        data.truncate(65540);
        spoil(&mut data, &mut random);
        answers[compare(&of, &descriptor, &data, sizes, &mut random) as usize] += 1;
    }
    for number in [0, 20, 21, 23] {
        assert!(answers[number] > 0, "{number}: {answers:?}");
    }
}

#[test]
fn descriptors_with_faults() {
    let mut random = Random(0xA076_1D64_78BD_642F);
    let mut answers = [0; 13];
    for _ in 0..CASES {
        let levels = 1 + random.below(10);
        let mut descriptor = encode(&any_type(&mut random, levels), &mut random);
        for _ in 0..random.below(4) {
            spoil_descriptor(&mut descriptor, &mut random);
        }
        let stated = match judge(&descriptor) {
            Ok(rows) => answer(0, 0, rows),
            Err((number, place)) => answer(number, 1, place),
        };
        let given = check_descriptor(&descriptor).answer;
        assert_eq!(given, stated, "{descriptor:02X?}");
        answers[given.number as usize] += 1;
    }
    for number in [0, 2, 3, 4, 5, 6, 8, 9, 10, 11, 12] {
        assert!(answers[number] > CASES / 2000, "{number}: {answers:?}");
    }
}

#[test]
fn refused_descriptors() {
    let mut random = Random(0x2545_F491_4F6C_DD1D);
    let mut refused = 0;
    for _ in 0..CASES / 10 {
        let of = any_type(&mut random, 4);
        let mut descriptor = encode(&of, &mut random);
        let place = random.below(descriptor.len());
        descriptor[place] = random.byte();
        let refusal = check_descriptor(&descriptor).answer;
        if refusal.number == 0 {
            continue;
        }
        refused += 1;
        let data = vec![0; random.below(20)];
        assert_eq!(check_data(&descriptor, &data), refusal);
        same_part(&of, &descriptor, &data, &[0], Some(refusal));
        let mut out = [0xA5; 20];
        assert_eq!(to_little_endian(&descriptor, &data, &mut out), refusal);
        assert_eq!(from_little_endian(&descriptor, &data, &mut out), refusal);
        assert_eq!(out, [0xA5; 20]);
    }
    assert!(refused > CASES / 40);
}
