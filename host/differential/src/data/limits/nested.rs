//! Parts in parts, down to depth 8.

use super::{Both, Limits, array, cluster, plain, stamp, text};
use crate::tree::Tree;

pub fn add(limits: &mut Limits) {
    clusters(limits);
    arrays(limits);
    empty_inside(limits);
    stamps(limits);
}

/// A time stamp inside five clusters, and inside two arrays of clusters.
fn stamps(limits: &mut Limits) {
    let data = Both::new().words(&[0xFFFF_FFFF, 0x8000_0001, 0x8000_0002, 3]);
    let tree = (1..6).fold(stamp(), |inner, _| cluster(vec![inner]));
    limits.accepted("a time stamp at depth 6", &tree, data.clone(), 4);
    for depth in 0..7 {
        limits.part(&vec![0; depth], 0, 16, None);
    }
    limits.nowhere(&[0, 0, 0, 0, 0, 1], 5);
    let values = [
        (2, -1i64 as u64),
        (2, -0x7FFF_FFFFi64 as u64),
        (1, 0x8000_0002),
        (1, 3),
    ];
    for (step, value) in (0..).zip(values) {
        let path = [0, 0, 0, 0, 0, 0, step];
        limits.part(&path, 4 * step as usize, 4, Some(value));
    }
    limits.nowhere(&[0, 0, 0, 0, 0, 0, 4], 6);
    limits.nowhere(&[0; 8], 7);
    let mut tree = stamp();
    for _ in 0..2 {
        tree = array(1, cluster(vec![tree]));
    }
    let data = rungs(2, &data);
    let end = data.len();
    limits.accepted("two arrays of two time stamps", &tree, data, 19);
    limits.part(&[1, 0, 1, 0], end - 16, 16, None);
    limits.part(&[1, 0, 1, 0, 0, 3], end - 4, 4, Some((1, 3)));
    limits.nowhere(&[1, 0, 1, 0, 1], 4);
}

/// A number inside seven clusters.
fn clusters(limits: &mut Limits) {
    let tree = (1..8).fold(plain(0x02), |inner, _| cluster(vec![inner]));
    limits.accepted(
        "a number at depth 8",
        &tree,
        Both::new().number(&[0xFF, 0xFE]),
        1,
    );
    for depth in 0..7 {
        limits.part(&vec![0; depth], 0, 2, None);
        let past: Vec<u32> = vec![0; depth].into_iter().chain([1]).collect();
        limits.nowhere(&past, depth as u32);
    }
    limits.part(&[0; 7], 0, 2, Some((2, -2i64 as u64)));
    limits.nowhere(&[0; 8], 7);
    limits.nowhere(&vec![0; 100_000], 7);
    limits.refused(
        "half a number at depth 8",
        &tree,
        Both::new().plain(&[1]),
        21,
        0,
    );
    let beside = (1..7).fold(cluster(vec![text(), plain(0x21)]), |inner, _| {
        cluster(vec![inner, plain(0x21)])
    });
    let data = Both::new().word(2).plain(b"hi").plain(&[0xFF; 7]);
    limits.accepted("a Boolean beside each cluster", &beside, data, 8);
    limits.part(&[0, 0, 0, 0, 0, 0, 0], 0, 6, None);
    limits.part(&[0, 0, 0, 0, 0, 0, 1], 6, 1, Some((5, 1)));
    limits.part(&[0, 0, 0], 0, 10, None);
    limits.part(&[1], 12, 1, Some((5, 1)));
}

/// Arrays of one cluster of one array .., four arrays in all.
fn ladder(leaf: Tree) -> Tree {
    let mut tree = array(1, leaf);
    for _ in 0..3 {
        tree = array(1, cluster(vec![tree]));
    }
    tree
}

/// Two elements at each level: the data of an array this high.
fn rungs(height: u32, leaf: &Both) -> Both {
    if height == 0 {
        return leaf.clone();
    }
    let below = rungs(height - 1, leaf);
    Both::new().word(2).then(&below).then(&below)
}

fn arrays(limits: &mut Limits) {
    let number = Both::new().number(&[1, 2]);
    let tree = ladder(plain(0x06));
    let data = rungs(4, &number);
    let end = data.len();
    limits.accepted("four arrays of two numbers", &tree, data.clone(), 31);
    limits.part(&[1, 0, 1, 0, 1, 0, 1], end - 2, 2, Some((1, 0x0102)));
    limits.part(&[1, 0, 1, 0, 1, 0], end - 8, 8, None);
    limits.part(&[0], 4, (end - 4) / 2, None);
    limits.nowhere(&[1, 0, 1, 0, 2, 0, 1], 4);
    limits.nowhere(&[1, 1], 1);
    limits.nowhere(&[1, 0, 1, 0, 1, 0, 1, 0], 7);
    let what = "four arrays of two numbers and a byte";
    limits.refused(what, &tree, data.plain(&[0]), 25, end);
    let word = Both::new().word(3).plain(b"abc");
    let data = rungs(4, &word);
    let end = data.len();
    limits.accepted("four arrays of two strings", &ladder(text()), data, 31);
    limits.part(&[1, 0, 1, 0, 1, 0, 1], end - 7, 7, None);
    let mut wrong = rungs(4, &word);
    wrong.set_number(end - 7, &[0x80, 0, 0, 3]);
    let what = "the last of four arrays of two strings";
    limits.refused(what, &ladder(text()), wrong, 22, end - 7);
}

/// Arrays that are empty inside arrays that are not.
fn empty_inside(limits: &mut Limits) {
    let tree = array(1, cluster(vec![array(2, text()), plain(0x05)]));
    let data = Both::new()
        .word(3)
        .words(&[0, 0x7FFF_FFFF])
        .plain(&[1])
        .words(&[1, 1])
        .word(1)
        .plain(b"s")
        .plain(&[2])
        .words(&[0x7FFF_FFFF, 0])
        .plain(&[3]);
    let end = data.len();
    limits.accepted("empty arrays between others", &tree, data, 8);
    limits.part(&[0, 0], 4, 8, None);
    limits.nowhere(&[0, 0, 0], 2);
    limits.part(&[1, 0, 0], 21, 5, None);
    limits.nowhere(&[1, 0, 1], 2);
    limits.part(&[2], end - 9, 9, None);
    limits.part(&[2, 1], end - 1, 1, Some((1, 3)));
    limits.nowhere(&[3], 0);
}
