//! The blank book compared with a slow reading, over records, questions and damage by
//! chance.

#[allow(dead_code, reason = "each test program uses a part of it")]
mod build;
#[allow(dead_code, reason = "each test program uses a part of it")]
mod naive;

use build::book::{Record, book, short};
use naive::book as slow;
use naive::random::{Random, any_data, any_type, encode, spoil, spoil_descriptor};
use naive::record::{describes, name};
use naive::rigs::{any_writer, cluster, renamed};
use reference::{Answer, check_descriptor, store_add, store_check, store_find, store_list};

/// Fewer without optimisation, where each takes longer.
const CASES: usize = if cfg!(debug_assertions) { 1000 } else { 8000 };

/// How many questions ended in each number.
type Answers = [usize; 65];

/// A writer: its descriptor, and its members if it is a cluster.
struct Rig {
    descriptor: Vec<u8>,
    members: Vec<Vec<u8>>,
}

/// A writer by chance. Mostly the one member named "blank" is what the reader looks
/// for; now and then it is of another type, or one of several, or there is none.
fn any_rig(random: &mut Random) -> Rig {
    if random.once_in(25) {
        let descriptor = encode(&any_type(random, 4), random);
        let members = vec![];
        return Rig {
            descriptor,
            members,
        };
    }
    let mut members: Vec<Vec<u8>> = (any_writer(random).into_iter())
        .map(|member| member.descriptor)
        .collect();
    members.truncate(random.below(members.len() + 1));
    let kind = random.below(20);
    if (1..4).contains(&kind) && !members.is_empty() {
        let place = random.below(members.len());
        members[place] = renamed(&members[place], Some(b"blank"));
    }
    if kind > 2 || members.is_empty() {
        let own = renamed(&[0, 4, random.byte(), 0x07], Some(b"blank"));
        members.insert(random.below(members.len() + 1), own);
    }
    Rig {
        descriptor: cluster(&members, random),
        members,
    }
}

/// Up to three writers, few of which are refused.
fn any_rigs(random: &mut Random) -> Vec<Rig> {
    let mut rigs = vec![];
    while rigs.len() < 1 + random.below(3) {
        let rig = any_rig(random);
        if check_descriptor(&rig.descriptor).answer.number == 0 || random.once_in(20) {
            rigs.push(rig);
        }
    }
    rigs
}

/// A record of one of these writers, mostly accepted, its identifier one of few. The
/// entry's identifier is that of the record wherever it can be read.
fn any_record(rigs: &[Rig], random: &mut Random) -> Record {
    let rig = &rigs[random.below(rigs.len())];
    let mut descriptor = rig.descriptor.clone();
    let mut data = vec![];
    for member in &rig.members {
        if name(member) == Some(b"blank") && member[3] == 0x07 {
            let identifier = [random.below(20) as u32, 0xFFFF_FFFF][random.below(20) / 19];
            data.extend(identifier.to_be_bytes());
        } else {
            any_data(&describes(member), random, 3, &mut data);
        }
    }
    if rig.members.is_empty() && check_descriptor(&descriptor).answer.number == 0 {
        any_data(&describes(&descriptor), random, 3, &mut data);
    }
    if random.once_in(15) {
        spoil(&mut data, random);
    }
    if random.once_in(40) {
        spoil_descriptor(&mut descriptor, random);
    }
    Record {
        identifier: slow::identifier(&descriptor, &data).unwrap_or(9),
        descriptor,
        data,
    }
}

/// Compares the check, a find and a list. Returns the check's answer.
fn ask(store: &[u8], identifier: u32, random: &mut Random, answers: &mut Answers) -> Answer {
    let checked = store_check(store);
    assert_eq!(checked, slow::check(store), "{store:02X?}");
    let part = store_find(store, identifier);
    assert_eq!(part, slow::find(store, identifier), "{store:02X?}");
    let count = match store.get(2..4) {
        Some(&[high, low]) => usize::from(u16::from_be_bytes([high, low])),
        _ => 0,
    };
    let places = [count, count + 1, count + 7, count.saturating_sub(1), 0][random.below(5)];
    let mut list = vec![0xA5A5_A5A5; places];
    let listed = store_list(store, &mut list);
    let (stated, numbers) = slow::list(store, list.len());
    assert_eq!(listed, stated, "{store:02X?}");
    let (written, kept) = list.split_at(numbers.len());
    assert!(written == numbers, "{store:02X?}");
    assert!(kept.iter().all(|number| *number == 0xA5A5_A5A5));
    for answer in [checked, part.answer, listed] {
        answers[answer.number as usize] += 1;
    }
    checked
}

/// Compares an addition, every byte of the book afterwards.
fn add(store: &mut [u8], record: &Record, answers: &mut Answers) {
    let (descriptor, data) = (&record.descriptor, &record.data);
    let (stated, after) = slow::add(store, descriptor, data);
    let before = store.to_vec();
    let given = store_add(store, descriptor, data);
    let about = || format!("{before:02X?} {descriptor:02X?} {data:02X?}");
    assert_eq!(given, stated, "{}", about());
    assert!(store == after, "{}", about());
    answers[given.number as usize] += 1;
}

fn any_bytes(length: usize, random: &mut Random) -> Vec<u8> {
    (0..length).map(|_| random.byte()).collect()
}

#[test]
fn adds_finds_and_lists() {
    let mut random = Random(0x6A09_E667_F3BC_C909);
    let mut answers = [0; 65];
    for _ in 0..CASES / 4 {
        let rigs = any_rigs(&mut random);
        let capacity = [random.below(4), random.below(16)][random.below(2)];
        let room = [random.below(100), random.below(3000)][random.below(2)];
        let free = any_bytes(room, &mut random);
        let mut store = book(capacity as u16, &[], &free);
        for _ in 0..random.below(20) {
            let record = any_record(&rigs, &mut random);
            match random.below(3) {
                0 => {
                    ask(&store, record.identifier, &mut random, &mut answers);
                }
                _ => add(&mut store, &record, &mut answers),
            }
        }
        let identifier = random.below(20) as u32;
        let checked = ask(&store, identifier, &mut random, &mut answers);
        assert_eq!(checked, Answer::default());
    }
    for number in [0, 21, 22, 25, 41, 42, 43, 44, 50, 60, 61, 62, 64] {
        assert!(answers[number] > CASES / 400, "{number}: {answers:?}");
    }
}

/// A book in which the entry of every record is right, but some records don't belong
/// there, with some unused entries and some free bytes.
fn any_book(rigs: &[Rig], random: &mut Random) -> Vec<u8> {
    let mut records: Vec<Record> = vec![];
    for _ in 0..random.below(10) {
        let record = any_record(rigs, random);
        let taken = (records.iter()).any(|other| other.identifier == record.identifier);
        let good = slow::identifier(&record.descriptor, &record.data).is_ok() && !taken;
        if good || random.once_in(12) {
            records.push(record);
        }
    }
    let capacity = records.len() + random.below(4);
    let length = [0, 0, 1, 60, 300][random.below(5)];
    let free = any_bytes(length, random);
    book(capacity as u16, &records, &free)
}

/// A number of four bytes near one that has a meaning in this book.
fn any_number(store: &[u8], random: &mut Random) -> u32 {
    let words = store.as_chunks().0;
    let other = match random.once_in(2) {
        true if !words.is_empty() => u32::from_be_bytes(words[random.below(words.len().min(60))]),
        _ => [0, 4, 16, 20, 36, store.len() as u32, 0x8000_0000][random.below(7)],
    };
    let near = [0, 1, u32::MAX, 0x8000_0000, 0x1_0000, 16][random.below(6)];
    other.wrapping_add(near)
}

/// Changes a book in one place.
fn damage(store: &mut Vec<u8>, random: &mut Random) {
    let contents = store.len().min(164);
    match random.below(12) {
        0 => store.truncate(random.below(store.len() + 1)),
        1 => store.truncate(store.len() - random.below(store.len().min(9) + 1)),
        2 => {
            let more = 1 + random.below(20);
            store.extend(any_bytes(more, random));
        }
        3 => {
            let length = [65535, 65536, 65537][random.below(3)];
            store.resize(length, random.byte());
        }
        4 if store.len() >= 4 => store[random.below(4)] = random.byte(),
        5 if store.len() >= 4 => {
            let half = 1 + 2 * random.below(2);
            store[half] = store[half].wrapping_add([1, 0xFF][random.below(2)]);
        }
        6 | 7 if contents >= 20 => {
            let number = any_number(store, random).to_be_bytes();
            let word = 4 * random.below(contents / 4);
            store[word..word + 4].copy_from_slice(&number);
        }
        8 if contents >= 36 => {
            let entry = |entry: usize| 4 + 16 * entry;
            let (from, to) = (random.below(contents / 16), random.below(contents / 16));
            let source = entry(from)..(entry(from) + 16).min(store.len());
            let to = entry(to).min(store.len() - source.len());
            store.copy_within(source, to);
        }
        9 if contents > 0 => store[random.below(contents)] = random.byte(),
        _ if !store.is_empty() => {
            let place = random.below(store.len());
            store[place] = random.byte();
        }
        _ => {}
    }
}

#[test]
fn damaged_books() {
    let mut random = Random(0xBB67_AE85_84CA_A73B);
    let mut answers = [0; 65];
    let mut places = [0; 12];
    for _ in 0..CASES {
        let rigs = any_rigs(&mut random);
        let mut store = any_book(&rigs, &mut random);
        for _ in 0..[0, 1, 1, 1, 1, 2, 3][random.below(7)] {
            damage(&mut store, &mut random);
        }
        let record = any_record(&rigs, &mut random);
        let checked = ask(&store, record.identifier, &mut random, &mut answers);
        add(&mut store, &record, &mut answers);
        if checked.number == 63 && checked.place < 12 {
            places[checked.place as usize] += 1;
        }
    }
    for number in [0, 50, 60, 61, 62, 63, 64] {
        assert!(answers[number] > CASES / 400, "{number}: {answers:?}");
    }
    for (place, times) in places[..9].iter().enumerate() {
        assert!(*times > CASES / 2000, "{place}: {places:?}");
    }
}

/// Books of as many short records as fit, with identifiers far apart, near, in rows of
/// every step, and with steps that send all to few places of a table.
#[test]
fn full_books() {
    let mut random = Random(0x3C6E_F372_FE94_F82B);
    let mut answers = [0; 65];
    let steps = [1, 16, 0xBC89_0000, 0x144C_BC89, 0x10_0001, 0x9E37_79B9];
    for case in 0..if cfg!(debug_assertions) { 4 } else { 32 } {
        let first = random.next() as u32;
        let identifier = |index: u32, random: &mut Random| match steps.get(case % 8) {
            Some(step) => index.wrapping_mul(*step).wrapping_add(first),
            None => random.next() as u32,
        };
        let capacity = 1815 + random.below(6);
        let count = capacity - random.below(3);
        let records = (0..count as u32).map(|index| short(identifier(index, &mut random)));
        let mut records: Vec<Record> = records.collect();
        if case % 3 == 1 {
            let place = random.below(count);
            records[place] = records[random.below(count)].clone();
        }
        let mut store = book(capacity as u16, &records, &[]);
        store.resize(65536, 0xA5);
        if case % 5 == 1 {
            let place = random.below(store.len());
            store[place] ^= 1 << random.below(8);
        }
        let asked = &records[random.below(count)];
        ask(&store, asked.identifier, &mut random, &mut answers);
        add(&mut store, asked, &mut answers);
        add(&mut store, &short(random.next() as u32), &mut answers);
    }
    for number in [0, 60, 63] {
        assert!(answers[number] > 0, "{number}: {answers:?}");
    }
}
