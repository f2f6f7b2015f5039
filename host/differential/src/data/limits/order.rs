//! The descriptor is judged to its end before its data, whatever that is.

use reference::Answer;

use super::{Both, Limits};

pub fn add(limits: &mut Limits) {
    let long = [vec![0x10, 0x01, 0, 3], vec![0; 4093]].concat();
    let descriptors: [(&[u8], u32, u32); 9] = [
        (&[], 2, 0),
        (&long, 1, 0),
        (&[0, 5, 0, 0x21, 0], 4, 0),
        (&[0, 4, 0, 0x21, 0], 12, 4),
        (&[0, 4, 0, 0x70], 5, 3),
        (&[0, 4, 0, 0x30], 8, 4),
        (&[0, 6, 0, 0x15, 0, 0], 9, 4),
        (&[0, 8, 0, 0x15, 0, 1, 0, 1], 10, 7),
        (&[0, 6, 0, 0x21, 2, b'a'], 11, 4),
    ];
    for (descriptor, number, place) in descriptors {
        for length in [0, 1, 65537] {
            let data = Both::new().plain(&vec![2; length]);
            let answer = Answer {
                number,
                input: 1,
                place,
            };
            let what = format!("{length} bytes under a descriptor refused with {number}");
            limits.add(what, descriptor.to_vec(), data, answer);
        }
    }
}
