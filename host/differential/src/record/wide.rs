//! Records with about as many members, or bytes, as there can be.

use reference::{MOST_BYTES, MOST_DATA};

use super::case::{Case, Record, bare};
use super::rig::{self, BYTES, Member, Rig, shuffle};
use super::stated::stated;
use super::wanted;
use crate::answers::refused;
use crate::data::fill::fill_up;
use crate::descriptor::case::encode;
use crate::kind::Kind;
use crate::random::Random;
use crate::tree::{Body, Tree, fits};

/// Up to 255 members, and a reader of about as many with a fault near its end.
pub fn wide(random: &mut Random) -> Case {
    let count = random.pick(&[254, 255, 255, 255, 255, 255]);
    let mut trees: Vec<Tree> = (0..count).map(|member| tree(random, member)).collect();
    lengthen_name(&mut trees);
    let mut wanted = trees.clone();
    if random.once_in(2) {
        shuffle(random, &mut wanted);
    }
    let less = random.pick(&[0, 0, 0, 1, 1, 2]);
    wanted.truncate(count - less);
    let long = random.once_in(8);
    if long {
        lengthen(&mut trees, &mut wanted);
    }
    fault(random, &mut trees, &mut wanted);
    let length = if long { 65536 - (count - 1) } else { 0 };
    let members = trees.into_iter();
    let members = members.map(|tree| {
        let filled = fill_up(random, &tree, length, Some(&[]));
        Member::of(tree, filled)
    });
    let rig = Rig::of(members.collect());
    asked(random, &rig, &Tree::unnamed(Body::Cluster(wanted)))
}

/// Gives the last member so long a name that it ends at 4,096, if it can be that
/// long.
fn lengthen_name(trees: &mut [Tree]) {
    let whole = Tree::unnamed(Body::Cluster(trees.to_vec()));
    let left = MOST_BYTES.saturating_sub(whole.normal_form().bytes.len());
    let last = trees.last_mut().and_then(|tree| tree.name.as_mut());
    if let Some(name) = last.filter(|name| name.len() + left <= 255) {
        name.extend(vec![b'.'; left]);
    }
}

/// Makes the reader's first member a string, which takes what the others leave.
fn lengthen(trees: &mut [Tree], wanted: &mut [Tree]) {
    let first = |tree: &&mut Tree| tree.name == wanted[0].name;
    if let Some(tree) = trees.iter_mut().find(first) {
        tree.body = Body::Text;
        wanted[0].body = Body::Text;
    }
}

/// A byte whose name differs from the others' in the middle alone, and at times in
/// capitals from the one before it.
fn tree(random: &mut Random, member: usize) -> Tree {
    let name = match random.below(20) {
        0 => format!("{member}"),
        1 if member % 2 == 1 => format!("NAME{:03}.XYZ", member - 1),
        _ => format!("name{member:03}.xyz"),
    };
    rig::number(random.pick(&BYTES), name.into_bytes())
}

/// A fault in one of the reader's last two members, if any.
fn fault(random: &mut Random, trees: &mut [Tree], wanted: &mut [Tree]) {
    let place = wanted.len() - random.pick(&[1, 1, 1, 2]);
    let earlier = wanted[random.below(place)].name.clone();
    let last = wanted[place].name.clone();
    match random.below(8) {
        0 => wanted[place].name = earlier,
        1 => wanted[place].name = Some(Vec::new()).filter(|_| random.once_in(2)),
        2 => wanted[place].name = Some(b"name1000xyz".to_vec()),
        3 | 4 => wanted[place].body = Body::Plain(random.pick(&[0x01, 0x02, 0x05, 0x21])),
        5 | 6 => {
            let asked = |tree: &Tree| wanted.iter().any(|member| member.name == tree.name);
            if let Some(unasked) = trees.iter_mut().find(|tree| !asked(tree)) {
                unasked.name = last;
            }
        }
        _ => {}
    }
}

/// 65,536 bytes or a few more or less.
pub fn long(random: &mut Random) -> Case {
    let length = random.pick(&[65534, 65535, 65535, 65536, 65536, 65537]);
    let mut rig = Rig::any(random);
    rig.members.truncate(4);
    let others: usize = rig.members.iter().map(|member| member.data.len()).sum();
    let mut text = Tree::unnamed(Body::Text);
    text.name = Some(b"all the others are short".to_vec());
    let filled = fill_up(random, &text, length.max(others + 4) - others, Some(&[]));
    rig.members.push(Member::of(text, filled));
    let place = random.below(rig.members.len());
    let last = rig.members.len() - 1;
    rig.members.swap(place, last);
    let mut reader = wanted::any(random, &rig);
    if random.once_in(2) {
        reader = rig.tree();
    }
    asked(random, &rig, &reader)
}

/// The case of a rig and a reader.
fn asked(random: &mut Random, rig: &Rig, reader: &Tree) -> Case {
    let (writer, data) = (rig.tree(), rig.record().data.big);
    let known = match data.len() > MOST_DATA {
        true => Err(refused(20, 0)),
        false => stated(&writer, reader, &data, &rig.spans()),
    };
    let record = Record::new(random, &writer, data);
    Case {
        stated: (fits(&writer) && fits(reader)).then_some(known),
        ..bare(Kind::WideRecord, record, encode(random, reader).bytes)
    }
}
