//! Strings: lengths that fit, run over, or are too high.

use super::{Both, Limits, cluster, enumeration, plain, text};

pub fn add(limits: &mut Limits) {
    for length in [0, 1, 2, 3, 4, 5, 31, 32, 33, 255, 256, 257, 4000] {
        let characters: Vec<u8> = (0..length).map(|index| index as u8).collect();
        let data = Both::new().word(length as u32).plain(&characters);
        limits.accepted(format!("{length} characters"), &text(), data.clone(), 1);
        limits.part(&[], 0, 4 + length, None);
        limits.nowhere(&[0], 0);
        let more = data.clone().plain(&[0]);
        let what = format!("{length} characters and a byte");
        limits.refused(what, &text(), more, 25, 4 + length);
        let what = format!("{length} characters less a byte");
        let cut = data.cut(3 + length);
        limits.refused(what, &text(), cut, 21, 0);
    }
    words(limits);
    behind_a_number(limits);
}

fn words(limits: &mut Limits) {
    for length in 0..4 {
        let cut = Both::new().word(u32::MAX).cut(length);
        limits.refused(format!("{length} bytes of the length"), &text(), cut, 21, 0);
    }
    for (word, number) in [
        (0x7FFF_FFFF, 21),
        (0x7FFF_FFFB, 21),
        (0x0001_0000, 21),
        (0x8000_0000, 22),
        (0x8000_0004, 22),
        (0xFFFF_FFFC, 22),
        (0xFFFF_FFFF, 22),
    ] {
        for behind in [0, 1, 4, 8] {
            let data = Both::new().word(word).plain(&vec![b'x'; behind]);
            let what = format!("length {word:08X}, {behind} characters");
            limits.refused(what, &text(), data, number, 0);
        }
    }
}

/// The same where the string is not the first piece.
fn behind_a_number(limits: &mut Limits) {
    let tree = cluster(vec![plain(0x06), text(), plain(0x21)]);
    let front = Both::new().number(&[1, 2]);
    let data = front.clone().word(3).plain(b"abc").plain(&[1]);
    limits.accepted("a string between numbers", &tree, data, 3);
    limits.part(&[1], 2, 7, None);
    limits.part(&[2], 9, 1, Some((5, 1)));
    limits.nowhere(&[3], 0);
    limits.nowhere(&[1, 0], 1);
    let data = front.clone().word(4).plain(b"abc").plain(&[1]);
    limits.refused("a length one too high", &tree, data, 21, 10);
    let data = front.clone().word(2).plain(b"ab").plain(b"c").plain(&[1]);
    limits.refused("a length one too low", &tree, data.clone(), 25, 9);
    let judged = cluster(vec![plain(0x06), text(), enumeration(0x15, 2)]);
    let what = "a length one too low, an enumeration behind";
    limits.refused(what, &judged, data, 23, 8);
    let data = front.clone().word(5).plain(b"abc").plain(&[1]);
    limits.refused("a length two too high", &tree, data, 21, 2);
    let data = front.word(0x8000_0003).plain(b"abc").plain(&[1]);
    limits.refused("a length with the high bit", &tree, data, 22, 2);
}
