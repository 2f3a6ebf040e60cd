//! Random DER trees, small ones and some near the limits.

use crate::der::{element, push_header, SEQUENCE, SET};
use crate::random::Random;

/// A random tree; sometimes with a fault.
pub fn small(random: &mut Random) -> Vec<u8> {
    let mut room = random.between(1, 40);
    let depth = random.between(1, 8);
    tree(random, depth, &mut room)
}

fn tree(random: &mut Random, depth: usize, room: &mut usize) -> Vec<u8> {
    *room = room.saturating_sub(1);
    if depth <= 1 || *room == 0 || random.percent(40) {
        return leaf(random);
    }
    let mut members: Vec<_> = (0..random.below(6)).map(|_| tree(random, depth - 1, room)).collect();
    let id = *random.pick(&[SEQUENCE, SEQUENCE, SEQUENCE, SET, SET, 0xA0, 0xA3, 0x61, 0xFE]);
    let id = if random.percent(1) { random.octet() } else { id };
    if id == SET {
        order(random, &mut members);
    }
    element(id, &members.concat())
}

/// The members of a SET: sometimes one that is near another among them, most
/// often in ascending order.
fn order(random: &mut Random, members: &mut Vec<Vec<u8>>) {
    if !members.is_empty() && random.percent(30) {
        let mut near = members[random.below(members.len())].clone();
        if let (Some(last), true) = (near.last_mut(), random.percent(60)) {
            *last ^= 1 << random.below(8);
        }
        members.push(near);
    }
    if random.percent(90) {
        members.sort();
    }
    if members.len() > 1 && random.percent(15) {
        let at = random.below(members.len() - 1);
        members.swap(at, at + 1);
    }
}

/// A SET of strings that differ in few octets, perhaps inside others; in about
/// half of them two neighbours are exchanged.
pub fn alike(random: &mut Random) -> Vec<u8> {
    let (id, length, filling) = (*random.pick(&[4, 12, 0x80]), random.below(70), random.octet());
    let mut members: Vec<_> = (0..random.between(2, 6))
        .map(|_| {
            let mut text = vec![filling; if random.percent(15) { random.below(70) } else { length }];
            if !text.is_empty() && random.percent(80) {
                let at = random.below(text.len());
                text[at] = random.octet();
            }
            element(id, &text)
        })
        .collect();
    members.sort();
    if random.percent(50) {
        let at = random.below(members.len() - 1);
        members.swap(at, at + 1);
    }
    let mut tree = element(SET, &members.concat());
    for _ in 0..random.below(3) {
        tree = element(*random.pick(&[SEQUENCE, SET, 0xA0]), &tree);
    }
    tree
}

/// Good primitive elements.
const LEAVES: &[&[u8]] = &[
    &[1, 1, 0],
    &[1, 1, 0xFF],
    &[5, 0],
    &[2, 1, 0],
    &[2, 2, 0, 0x80],
    &[2, 1, 0x80],
    &[2, 3, 0xFF, 0x7F, 0],
    &[6, 3, 0x55, 4, 6],
    &[6, 4, 0x2A, 0x86, 0x80, 1],
    &[6, 1, 0],
    &[3, 1, 0],
    &[3, 2, 7, 0x80],
    &[3, 3, 1, 1, 2],
    &[4, 0],
    &[4, 3, 1, 2, 3],
    &[0x13, 2, b'U', b'T'],
    &[0x17, 1, 0],
    &[0x80, 0],
    &[0x82, 1, 0xFF],
    &[0x5E, 0],
    &[10, 0],
    &[9, 1, 9],
    &[0x1E, 2, 0, 0],
];

/// Elements that are not good.
const BAD: &[&[u8]] = &[
    &[1, 0],
    &[1, 1, 1],
    &[5, 1, 0],
    &[2, 0],
    &[2, 2, 0, 0x7F],
    &[2, 2, 0xFF, 0x80],
    &[6, 0],
    &[6, 1, 0x80],
    &[6, 2, 1, 0x80],
    &[6, 3, 1, 0x80, 1],
    &[3, 0],
    &[3, 1, 1],
    &[3, 2, 8, 0],
    &[3, 2, 7, 0x81],
    &[0x1F, 0],
    &[0x10, 0],
    &[0x11, 0],
    &[0x24, 0],
    &[0x22, 3, 2, 1, 0],
    &[0, 0],
    &[0x20, 0],
    &[0xBF, 0],
    &[4, 0x80],
    &[4, 0x81, 1, 1],
    &[4, 0x83, 0, 0, 0],
    &[0x28, 0],
    &[0x2B, 0],
    &[0x3D, 0],
    &[4, 0x82, 0, 1, 1],
];

/// One primitive element; one in about thirty is not good.
pub fn leaf(random: &mut Random) -> Vec<u8> {
    match random.below(60) {
        0 | 1 => random.pick(BAD).to_vec(),
        2 => long(random),
        _ => random.pick(LEAVES).to_vec(),
    }
}

/// A long string, around the places where the length's form changes.
fn long(random: &mut Random) -> Vec<u8> {
    let length = *random.pick(&[127, 128, 129, 255, 256, 257, 300]);
    element(*random.pick(&[4, 12, 0x80]), &vec![random.octet(); length])
}

/// A tree of 14 to 18 levels, with some elements beside.
pub fn deep(random: &mut Random) -> Vec<u8> {
    let mut tree = if random.percent(50) { leaf(random) } else { Vec::new() };
    for _ in 0..random.between(13, 18) {
        let mut contents = if random.percent(30) { leaf(random) } else { Vec::new() };
        contents.extend_from_slice(&tree);
        if random.percent(30) {
            contents.extend(leaf(random));
        }
        tree = element(*random.pick(&[SEQUENCE, SET, 0xA0, 0xE5]), &contents);
    }
    tree
}

/// A tree of 4,090 to 4,100 elements.
pub fn many(random: &mut Random) -> Vec<u8> {
    let elements = random.between(4_090, 4_100);
    let mut contents = Vec::with_capacity(3 * elements);
    let group = *random.pick(&[1, 2, 5, 60]);
    let mut left = elements - 1;
    while left > 0 {
        if group == 1 || left <= group {
            contents.extend([5, 0]);
            left -= 1;
        } else {
            push_header(&mut contents, SEQUENCE, 2 * (group - 1));
            for _ in 1..group {
                contents.extend([5, 0]);
            }
            left -= group;
        }
    }
    if random.percent(20) {
        // The last elements are not good.
        let at = contents.len() - 2 * random.between(1, 3);
        contents[at] = *random.pick(&[6, 0x1F, 0x30, 2]);
    }
    element(*random.pick(&[SEQUENCE, SEQUENCE, SET]), &contents)
}

/// An item of 16,380 to 16,388 bytes.
pub fn big(random: &mut Random) -> Vec<u8> {
    let length = random.between(16_380, 16_388);
    let mut item = element(SEQUENCE, &element(4, &vec![random.octet(); length - 8]));
    if random.percent(20) {
        let at = random.below(8);
        item[at] = random.octet();
    }
    item
}
