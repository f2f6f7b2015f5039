//! The entries share nothing: called from many threads at once, on the same input
//! and on different ones, each gives what it gives alone.

use std::sync::Barrier;
use std::thread;

use kerbcanopy::{
    Answer, Checked, Compared, Difference, Part, Stamp, Value, check_data, check_descriptor,
    compare, from_little_endian, normal_form, read_record, read_value, stamp_difference, store_add,
    store_check, store_find, store_list, to_little_endian, view,
};

const THREADS: usize = 8;
const ROUNDS: usize = 40;

/// A descriptor, another, data under the first, a path into it, two time stamps, and a
/// blank book.
struct Input {
    first: Vec<u8>,
    second: Vec<u8>,
    data: Vec<u8>,
    path: Vec<u32>,
    stamps: [Stamp; 2],
    book: Vec<u8>,
}

/// What every entry gives for an input, with every byte of the outputs.
#[derive(Debug, PartialEq, Eq)]
struct Given {
    checked: Box<Checked>,
    compared: Compared,
    judged: Answer,
    part: Part,
    value: Value,
    difference: Difference,
    outputs: [(Answer, Vec<u8>); 4],
    book: Asked,
}

/// What is told of a book, the next blank being added to it: the check, the book with
/// its answer, the part of that blank, and the list.
#[derive(Debug, PartialEq, Eq)]
struct Asked {
    check: Answer,
    added: (Answer, Vec<u8>),
    found: Part,
    listed: (Answer, [u32; 8]),
}

impl Asked {
    fn of(book: &[u8]) -> Asked {
        let (mut grown, mut identifiers) = (book.to_vec(), [7; 8]);
        let next = u32::from(book[3]);
        let added = store_add(&mut grown, &blank(), &next.to_be_bytes());
        Asked {
            check: store_check(book),
            found: store_find(&grown, next),
            listed: (store_list(&grown, &mut identifiers), identifiers),
            added: (added, grown),
        }
    }
}

impl Given {
    fn of(input: &Input) -> Given {
        let [first, second, data] = [&input.first[..], &input.second, &input.data];
        let output = |write: &dyn Fn(&mut [u8]) -> Answer| {
            let mut out = vec![0xA5; 5000];
            (write(&mut out), out)
        };
        Given {
            checked: Box::new(check_descriptor(first)),
            compared: compare(first, second),
            judged: check_data(first, data),
            part: view(first, data, &input.path),
            value: read_value(first, data, &input.path),
            difference: stamp_difference(input.stamps[0], input.stamps[1]),
            outputs: [
                output(&|out| normal_form(first, out)),
                output(&|out| to_little_endian(first, data, out)),
                output(&|out| from_little_endian(first, data, out)),
                output(&|out| read_record(first, second, data, out)),
            ],
            book: Asked::of(&input.book),
        }
    }
}

/// A descriptor of this code whose size follows from its body.
fn descriptor(code: u8, body: &[u8]) -> Vec<u8> {
    let size = (4 + body.len() as u16).to_be_bytes();
    [&[size[0], size[1], 0x40, code], body].concat()
}

fn cluster(members: &[Vec<u8>]) -> Vec<u8> {
    let count = (members.len() as u16).to_be_bytes();
    descriptor(0x50, &[&count[..], &members.concat()].concat())
}

/// A byte whose name is this number in three digits.
fn named(number: usize) -> Vec<u8> {
    let name = format!("{number:03}");
    descriptor(0x05, &[&[3], name.as_bytes()].concat())
}

/// The shortest rig that has a blank's identifier.
fn blank() -> Vec<u8> {
    cluster(&[descriptor(0x07, b"\x05blank")])
}

/// A book of five entries with the first blanks in it; one more than five has its
/// count broken instead.
fn book(blanks: u8) -> Vec<u8> {
    let mut book = vec![0; 300];
    book[1] = 5;
    for identifier in 0..blanks.min(5) {
        store_add(&mut book, &blank(), &u32::from(identifier).to_be_bytes());
    }
    book[3] = blanks;
    book
}

/// A time stamp that follows from a number, by chance early or late.
fn stamp(number: usize) -> Stamp {
    let word = |times: u32| (number as u32 + 1).wrapping_mul(times);
    Stamp {
        seconds_high: word(0x6C07_8965).cast_signed(),
        seconds_low: word(0x9E37_79B9).cast_signed(),
        fraction_high: word(0x85EB_CA6B),
        fraction_low: word(0xC2B2_AE35),
    }
}

/// Accepted and refused ones, among them the widest and the deepest descriptor.
fn inputs() -> Vec<Input> {
    let wide: Vec<Vec<u8>> = (0..255).map(named).collect();
    let back: Vec<Vec<u8>> = wide.iter().rev().cloned().collect();
    let deep = |code| (0..7).fold(descriptor(code, &[]), |inner, _| cluster(&[inner]));
    let doubles = descriptor(
        0x40,
        &[&[0, 1][..], &[0xFF; 4], &descriptor(0x0A, &[])].concat(),
    );
    let many: Vec<u8> = [&[0, 0, 2, 0][..], &[0x40, 1, 2, 3, 4, 5, 6, 7].repeat(512)].concat();
    let input = |first: &[u8], second: &[u8], data: &[u8], path: &[u32]| Input {
        first: first.to_vec(),
        second: second.to_vec(),
        data: data.to_vec(),
        path: path.to_vec(),
        stamps: [stamp(first.len()), stamp(data.len())],
        book: Vec::new(),
    };
    let bytes: Vec<u8> = (0..255).collect();
    let mut inputs = vec![
        input(&cluster(&wide), &cluster(&back), &bytes, &[254]),
        input(&cluster(&wide), &cluster(&wide[7..90]), &bytes, &[]),
        input(&deep(0x02), &deep(0x06), &[0xFF, 0xFE], &[0; 7]),
        input(&doubles, &doubles, &many, &[511]),
        input(&doubles, &cluster(&wide), &many[1..], &[0]),
        input(&doubles[1..], &deep(0x21), &many, &[1, 1]),
        input(&cluster(&[deep(0x21)]), &[], &[1], &[]),
        input(&[], &[], &[], &[]),
    ];
    for (blanks, input) in inputs.iter_mut().enumerate() {
        input.book = book(blanks as u8);
    }
    inputs
}

/// Every thread starts at another input, so that at any time some ask about the
/// same and others about different ones.
fn ask(thread: usize, inputs: &[Input], alone: &[Given]) {
    for round in 0..ROUNDS {
        for turn in 0..inputs.len() {
            let number = (turn + thread / 2 * (round % 3)) % inputs.len();
            let given = Given::of(&inputs[number]);
            assert!(given == alone[number], "input {number} in thread {thread}");
        }
    }
}

#[test]
fn many_threads_get_what_one_gets() {
    let inputs = inputs();
    let alone: Vec<Given> = inputs.iter().map(Given::of).collect();
    let accepted = alone
        .iter()
        .filter(|given| given.judged.number == 0)
        .count();
    assert_eq!(accepted, 4);
    let far = |given: &&Given| given.difference.answer.number == 32;
    assert!((1..alone.len()).contains(&alone.iter().filter(far).count()));
    let numbers = alone.iter().map(|given| given.book.added.0.number);
    let [added, full, bad] =
        [0, 61, 63].map(|number| numbers.clone().filter(|given| *given == number).count());
    assert!(added > 1 && full > 0 && bad > 0, "{added} {full} {bad}");
    let together = Barrier::new(THREADS);
    thread::scope(|scope| {
        for number in 0..THREADS {
            let (inputs, alone, together) = (&inputs, &alone, &together);
            scope.spawn(move || {
                together.wait();
                ask(number, inputs, alone);
            });
        }
    });
}
