//! Arrays whose elements the library passes many at a time, with one element at
//! fault: it is named wherever it stands. The answers are counted here from
//! document 01's rules, by neither implementation.

use kerbcanopy::{Answer, check_data};

fn refused(number: u32, place: usize) -> Answer {
    Answer {
        number,
        input: 3,
        place: place as u32,
    }
}

fn accepted(pieces: usize) -> Answer {
    Answer {
        number: 0,
        input: 0,
        place: pieces as u32,
    }
}

/// A descriptor of this code and body.
fn described(code: u8, body: &[u8]) -> Vec<u8> {
    let size = (4 + body.len()) as u16;
    [&size.to_be_bytes()[..], &[0, code], body].concat()
}

fn scalar(code: u8) -> Vec<u8> {
    described(code, &[])
}

fn string() -> Vec<u8> {
    described(0x30, &[0xFF; 4])
}

fn cluster(members: &[Vec<u8>]) -> Vec<u8> {
    let count = members.len() as u16;
    described(
        0x50,
        &[&count.to_be_bytes()[..], &members.concat()].concat(),
    )
}

fn array(element: Vec<u8>) -> Vec<u8> {
    described(
        0x40,
        &[&[0, 1, 0xFF, 0xFF, 0xFF, 0xFF][..], &element].concat(),
    )
}

/// A size or length word, then these bytes.
fn counted(count: usize, bytes: &[u8]) -> Vec<u8> {
    [&(count as u32).to_be_bytes()[..], bytes].concat()
}

/// Document 02, CR 2: any byte will do.
#[test]
fn no_byte_of_a_boolean_is_at_fault() {
    let descriptor = array(scalar(0x21));
    for count in (1..70).chain([255, 256, 1000]) {
        let bytes: Vec<u8> = (0..count).map(|index| !index as u8).collect();
        let mut data = counted(count, &bytes);
        assert_eq!(check_data(&descriptor, &data), accepted(1 + count));
        assert_eq!(
            check_data(&descriptor, &data[..3 + count]),
            refused(21, 3 + count)
        );
        data.push(0xFF);
        assert_eq!(check_data(&descriptor, &data), refused(25, 4 + count));
    }
}

#[test]
fn an_enumeration_at_fault_is_found_wherever_it_stands() {
    // Three empty items and a fill byte.
    let descriptor = array(described(0x16, &[0, 3, 0, 0, 0, 0]));
    for count in (1..40).chain([255, 256]) {
        let data = counted(count, &[0, 2].repeat(count));
        assert_eq!(check_data(&descriptor, &data), accepted(1 + count));
        for fault in 0..count {
            let mut data = data.clone();
            data[4 + 2 * fault + 1] = 3;
            assert_eq!(check_data(&descriptor, &data), refused(23, 4 + 2 * fault));
        }
    }
}

/// Clusters of a 16-bit number, a string and a double, nested so that the string
/// stands two deep; each has as many characters as its index, up to six.
#[test]
fn elements_with_a_string_are_cut_at_every_byte() {
    let inner = cluster(&[string(), scalar(0x0A)]);
    let descriptor = array(cluster(&[scalar(0x02), inner]));
    let count = 7;
    let mut data = counted(count, &[]);
    // Where each piece after the size word starts.
    let mut pieces = vec![];
    for index in 0..count {
        pieces.push(data.len());
        data.extend([0, 1]);
        pieces.push(data.len());
        data.extend(counted(index, &vec![b'a'; index]));
        pieces.push(data.len());
        data.extend([0; 8]);
    }
    assert_eq!(check_data(&descriptor, &data), accepted(1 + pieces.len()));
    for end in 4..data.len() {
        let cut = pieces.iter().rev().find(|start| **start <= end).unwrap();
        assert_eq!(check_data(&descriptor, &data[..end]), refused(21, *cut));
    }
    // A string's length one too many shifts what follows: the data ends early.
    let mut longer = data.clone();
    longer[pieces[1] + 3] += 1;
    assert_eq!(check_data(&descriptor, &longer).number, 21);
    // A length of 2^31 is refused where it stands.
    for element in 0..count {
        let mut data = data.clone();
        let place = pieces[3 * element + 1];
        data[place] = 0x80;
        assert_eq!(check_data(&descriptor, &data), refused(22, place));
    }
    let behind = data.len();
    data.push(0);
    assert_eq!(check_data(&descriptor, &data), refused(25, behind));
}

/// Beside a string an enumeration is judged too, and a Boolean is not.
#[test]
fn an_enumeration_beside_a_string_is_judged() {
    let mode = described(0x15, &[0, 2, 0, 0]);
    let descriptor = array(cluster(&[string(), scalar(0x21), mode]));
    let element = [&counted(3, b"abc")[..], &[0xFF, 1]].concat();
    for fault in 0..20 {
        let mut data = counted(20, &element.repeat(20));
        assert_eq!(check_data(&descriptor, &data), accepted(61));
        let place = 4 + 9 * fault + 8;
        data[place] = 2;
        assert_eq!(check_data(&descriptor, &data), refused(23, place));
    }
}
