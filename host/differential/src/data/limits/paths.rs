//! Paths to parts of every kind, and one step past each.

use super::{Ask, Limits, always, array, cluster, enumeration, every_scalar, plain, stamp, text};
use crate::tree::Tree;

pub fn add(limits: &mut Limits) {
    let scalars = every_scalar().into_iter().map(|(_, tree)| tree);
    let mut members: Vec<Tree> = scalars.clone().collect();
    every_part(
        limits,
        "a member of every code",
        &cluster(members.clone()),
        1,
    );
    members.extend([text(), stamp(), array(1, text()), array(4, plain(0x21))]);
    let inner = cluster(members.clone());
    members.push(inner);
    every_part(limits, "members in members", &cluster(members), 200);
    let mut wide = vec![plain(0x05); 254];
    wide.push(plain(0x21));
    every_part(limits, "255 members", &cluster(wide.clone()), 255);
    wide.truncate(253);
    wide.push(array(1, plain(0x0A)));
    every_part(limits, "an array in row 255", &cluster(wide), 280);
    let records = cluster(vec![plain(0x06), text(), enumeration(0x15, 5)]);
    every_part(limits, "a time stamp", &stamp(), 16);
    for element in scalars.chain([text(), records, stamp()]) {
        every_part(limits, "elements", &array(1, element.clone()), 60);
        every_part(limits, "elements of a cube", &array(3, element), 60);
    }
}

/// Every part that the generator notes, one step past each and one far past.
fn every_part(limits: &mut Limits, what: &str, tree: &Tree, least: usize) {
    let filled = always(tree, least, least + 1500);
    let mut asks = Vec::new();
    for part in &filled.parts {
        asks.push(Ask::part(part));
        asks.push(Ask::past(part, part.steps, &[]));
        asks.push(Ask::past(part, part.steps.max(0x1_0000), &[0, 0]));
    }
    limits.filled(what, tree, filled, asks);
}
