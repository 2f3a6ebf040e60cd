//! The walk and the INTEGER question.

use plain::{integer, walk, Integer, Walk};

fn passes(item: &[u8], count: u64) {
    assert_eq!(walk(item), Walk { number: 0, detail: 0, count }, "{item:02X?}");
}

fn refused(item: &[u8], number: u64, detail: u64) {
    assert_eq!(walk(item), Walk { number, detail, count: 0 }, "{item:02X?}");
}

fn value(item: &[u8], value: i64) {
    assert_eq!(integer(item), Integer { number: 0, detail: 0, value }, "{item:02X?}");
}

/// `depth` SEQUENCEs, one in the other.
fn nested(depth: usize) -> Vec<u8> {
    let mut item = Vec::new();
    for _ in 0..depth {
        let length = item.len() as u8;
        item.splice(0..0, [0x30, length]);
    }
    item
}

/// A SEQUENCE of `members` NULLs.
fn nulls(members: usize) -> Vec<u8> {
    let length = 2 * members;
    let mut item = vec![0x30, 0x82, (length >> 8) as u8, length as u8];
    item.extend([0x05, 0x00].repeat(members));
    item
}

#[test]
fn the_table() {
    passes(&[0x30, 3, 2, 1, 5], 2);
    passes(&[0x30, 0], 1);
    refused(&[], 2, 0);
    refused(&[0x30, 0x80], 2, 0);
    refused(&[0x30, 0x81, 3, 2, 1, 5], 2, 0);
    refused(&[0x30, 3, 2, 2, 5], 2, 2);
    refused(&[5, 0, 0], 2, 2);
    refused(&[2, 2, 0, 0x7F], 2, 0);
    value(&[2, 2, 0, 0x80], 128);
    value(&[2, 1, 0x80], -128);
    refused(&[3, 2, 7, 0x81], 2, 0);
}

#[test]
fn depth() {
    passes(&nested(16), 16);
    refused(&nested(17), 3, 32);
    // Contents are judged after depth, the identifier before it.
    let mut deep = nested(17);
    deep[32] = 0x10;
    refused(&deep, 2, 32);
}

#[test]
fn count() {
    passes(&nulls(4_095), 4_096);
    refused(&nulls(4_096), 3, 4 + 2 * 4_095);
    // A bad NULL there is told after the count, a bad identifier before it.
    let mut item = nulls(4_096);
    item[4 + 2 * 4_095] = 0x06;
    refused(&item, 3, 4 + 2 * 4_095);
    item[4 + 2 * 4_095] = 0x1F;
    refused(&item, 2, 4 + 2 * 4_095);
}

#[test]
fn members_of_a_set() {
    passes(&[0x31, 6, 0x13, 1, 0x44, 0x13, 1, 0x50], 3);
    passes(&[0x31, 6, 0x13, 1, 0x44, 0x13, 1, 0x44], 3);
    refused(&[0x31, 6, 0x13, 1, 0x50, 0x13, 1, 0x44], 2, 5);
    passes(&[0x30, 6, 0x13, 1, 0x50, 0x13, 1, 0x44], 3);
    passes(&[0xB1, 6, 0x13, 1, 0x50, 0x13, 1, 0x44], 3);
    // Each against the one before it, not against the first.
    refused(&[0x31, 6, 4, 0, 5, 0, 4, 0], 2, 6);
    // A shorter member comes first by its length octet.
    passes(&[0x31, 7, 0x13, 1, 0x50, 0x13, 2, 0x41, 0x41], 3);
    refused(&[0x31, 7, 0x13, 2, 0x41, 0x41, 0x13, 1, 0x50], 2, 6);
    // Told before its contents, and after its end.
    refused(&[0x31, 5, 4, 0, 1, 1, 5], 2, 4);
    refused(&[0x31, 4, 4, 0, 1, 1], 2, 4);
    // A SET in a SET: the inner one first.
    refused(&[0x31, 8, 0x31, 4, 5, 0, 4, 0, 5, 0], 2, 6);
    refused(&[0x31, 6, 0x31, 2, 5, 0, 5, 0], 2, 6);
    passes(&[0x31, 8, 0x31, 2, 5, 0, 0x31, 2, 5, 0], 5);
}

#[test]
fn a_set_at_the_limits() {
    let mut item = nulls(4_096);
    item[0] = 0x31;
    item[4 + 2 * 4_095] = 4;
    refused(&item, 3, 4 + 2 * 4_095);
    item[4 + 2 * 4_094] = 4;
    refused(&item, 2, 4 + 2 * 4_094);
}

#[test]
fn size() {
    let mut item = vec![0x04, 0x82, 0x3F, 0xFC];
    item.resize(16_384, 0);
    passes(&item, 1);
    item.push(0);
    refused(&item, 3, 0);
    refused(&[0; 16_385], 3, 0);
    assert_eq!(integer(&[0; 16_385]), Integer { number: 3, detail: 0, value: 0 });
}

#[test]
fn identifiers() {
    for id in 0..=255u8 {
        let (number, constructed) = (id & 31, id & 32 != 0);
        let universal = id < 64;
        let good = number != 31 && !(universal && (number == 0 || (number == 16 || number == 17) != constructed));
        // One octet of contents, or an empty element where that may be.
        let item: &[u8] = match id {
            0x05 => &[0x05, 0],
            _ if constructed => &[id, 2, 0x05, 0],
            _ => &[id, 1, 0],
        };
        if good {
            passes(item, 1 + constructed as u64);
        } else {
            refused(item, 2, 0);
        }
    }
}

#[test]
fn lengths() {
    let long = |head: &[u8], length: usize| {
        let mut item = head.to_vec();
        item.resize(head.len() + length, 1);
        item
    };
    passes(&long(&[4, 0x7F], 127), 1);
    passes(&long(&[4, 0x81, 0x80], 128), 1);
    passes(&long(&[4, 0x81, 0xFF], 255), 1);
    passes(&long(&[4, 0x82, 1, 0], 256), 1);
    refused(&long(&[4, 0x81, 0x7F], 127), 2, 0);
    refused(&long(&[4, 0x82, 0, 0xFF], 255), 2, 0);
    refused(&long(&[4, 0x83, 0, 1, 0], 256), 2, 0);
    refused(&long(&[4, 0x80], 0), 2, 0);
    refused(&long(&[4, 0x84, 0, 0, 0, 1], 1), 2, 0);
    refused(&long(&[4, 0xFF], 200), 2, 0);
    for short in [&[4][..], &[4, 0x81], &[4, 0x82], &[4, 0x82, 1], &[4, 1]] {
        refused(short, 2, 0);
    }
}

#[test]
fn contents() {
    for good in [
        &[1, 1, 0][..],
        &[1, 1, 0xFF],
        &[5, 0],
        &[2, 1, 0],
        &[2, 1, 0xFF],
        &[2, 2, 0xFF, 0x7F],
        &[6, 1, 0x2A],
        &[6, 3, 0x2A, 0x86, 0x01],
        &[6, 3, 0x2A, 0x81, 0x80 - 1],
        &[6, 3, 0x81, 0x80, 0x00],
        &[3, 1, 0],
        &[3, 2, 7, 0x80],
        &[3, 2, 0, 0xFF],
        &[10, 0],
        &[12, 1, 0xFF],
        &[0x17, 0],
        &[0x80, 0],
        &[0xA0, 0],
    ] {
        passes(good, 1);
    }
    for bad in [
        &[1, 0][..],
        &[1, 1, 1],
        &[1, 2, 0, 0],
        &[5, 1, 0],
        &[2, 0],
        &[2, 2, 0, 0],
        &[2, 2, 0xFF, 0x80],
        &[6, 0],
        &[6, 1, 0x80],
        &[6, 2, 0x2A, 0x81],
        &[6, 3, 0x2A, 0x80, 1],
        &[3, 0],
        &[3, 1, 1],
        &[3, 2, 8, 0],
        &[3, 2, 1, 1],
        &[3, 3, 7, 0, 0x40],
    ] {
        refused(bad, 2, 0);
    }
}

#[test]
fn parents_and_order() {
    // A child past its parent but inside the item.
    refused(&[0x30, 6, 0x30, 3, 4, 2, 1, 1], 2, 4);
    // One octet left over in a constructed element.
    refused(&[0x30, 3, 5, 0, 5], 2, 4);
    // A length octet outside the parent is missing.
    refused(&[0x30, 4, 0x30, 1, 5, 0], 2, 4);
    // The element before its children, left to right.
    refused(&[0x30, 6, 0x31, 2, 5, 1, 1, 0], 2, 4);
    refused(&[0x30, 5, 1, 1, 2, 1, 0], 2, 2);
    // Octets after the outermost are told last.
    refused(&[0x30, 3, 1, 1, 2, 0], 2, 2);
    refused(&[0x30, 3, 1, 1, 0, 0], 2, 5);
}

#[test]
fn integers() {
    value(&[2, 1, 0], 0);
    value(&[2, 1, 0xFF], -1);
    value(&[2, 8, 0x7F, 255, 255, 255, 255, 255, 255, 255], i64::MAX);
    value(&[2, 8, 0x80, 0, 0, 0, 0, 0, 0, 0], i64::MIN);
    let refused = |item: &[u8], number, detail| {
        assert_eq!(integer(item), Integer { number, detail, value: 0 }, "{item:02X?}");
    };
    refused(&[2, 9, 0, 0x80, 0, 0, 0, 0, 0, 0, 0], 8, 0);
    refused(&[5, 0], 1, 0);
    refused(&[0x30, 3, 2, 1, 5], 1, 0);
    refused(&[5, 0, 0], 2, 2);
    refused(&[2, 9, 0, 0x80, 0, 0, 0, 0, 0, 0, 0, 0], 2, 11);
    refused(&nested(17), 3, 32);
}
