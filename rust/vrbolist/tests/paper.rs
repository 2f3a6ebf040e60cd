//! The wrapper on a few worked cases: passes, refusals, and parts as slices.

use vrbolist::{
    anchors, day_difference, entry, image, integer, lettered, letters, make_room, move_to_1, move_to_2, replay, walk,
    Refusal,
};

#[test]
fn walks() {
    assert_eq!(walk(&[0x30, 3, 2, 1, 5]), Ok(2));
    assert_eq!(walk(&[]), Err(Refusal { number: 2, detail: 0 }));
    assert_eq!(walk(&[5, 0, 0]), Err(Refusal { number: 2, detail: 2 }));
}

#[test]
fn numbers() {
    assert_eq!(integer(&[2, 2, 0, 0x80]), Ok(128));
    assert_eq!(integer(&[2, 1, 0x80]), Ok(-128));
    assert_eq!(integer(&[0x30, 0]), Err(Refusal { number: 1, detail: 0 }));
    assert_eq!(day_difference(20210101, 20201231), Ok(-1));
}

#[test]
fn smallest_image() {
    let bytes = [0, 0, 0, 0, 0, 0, 0, 1, 1, 0x34, 0xD7, 0xAD];
    assert_eq!(image(&bytes).map(|found| (found.entries, found.day, found.version)), Ok((0, 20240301, 1)));
    let mut out = [7; 13];
    assert_eq!(vrbolist::write(&[], &[], &[], &[], &[], 1, 20240301, &mut out), Ok(&bytes[..]));
    assert_eq!(out[12], 7);
}

#[test]
fn both_versions() {
    let (mut two, mut one) = ([7; 30], [7; 30]);
    let wanted = [5, 1, 0, 0, 1, 0, 0, 0, 0, b'U', b'T', 0, 0, 0, 0, 0, 1, 0, 1, 0, 2, 1, 0x34, 0xD7, 0xAD];
    let written = vrbolist::write(&[5], &[1], &[0], &[1], b"UT", 2, 20240301, &mut two);
    assert_eq!(written, Ok(&wanted[..]));
    assert_eq!(two[25..], [7; 5]);
    assert_eq!(image(&wanted).map(|found| found.version), Ok(2));
    assert_eq!(entry(&wanted, 0).map(|found| found.country), Ok(*b"UT"));
    // What is no certificate has no true letters but zeros.
    assert_eq!(letters(&wanted), Ok(false));
    let back = move_to_1(&wanted, &mut one).map(<[u8]>::to_vec).unwrap();
    assert_eq!(back, [5, 1, 0, 0, 1, 0, 0, 0, 0, 0, 0, 0, 1, 0, 1, 0, 1, 1, 0x34, 0xD7, 0xAD]);
    assert_eq!(entry(&back, 0).map(|found| found.country), Ok([0, 0]));
    let forth = move_to_2(&back, &mut two).map(<[u8]>::to_vec).unwrap();
    assert_eq!((forth.len(), letters(&forth)), (25, Ok(true)));
    let rule_2 = Refusal { number: 5, detail: 2 };
    assert_eq!((letters(&back), move_to_1(&back, &mut one).err()), (Err(rule_2), Some(rule_2)));
    assert_eq!(move_to_2(&forth, &mut two), Err(rule_2));
    assert_eq!(move_to_2(&back, &mut [0; 24]), Err(Refusal { number: 9, detail: 0 }));
}

/// What is no certificate goes, whatever the moment.
#[test]
fn room() {
    let full = [5, 1, 0, 0, 1, 0, 0, 0, 0, 0, 0, 0, 1, 0, 1, 0, 1, 1, 0x34, 0xD7, 0xAD];
    let empty = [0, 0, 0, 0, 0, 0, 0, 1, 1, 0x34, 0xD7, 0xAD];
    let (mut out, mut table) = ([7; 14], [7; 1]);
    let made = make_room(&full, &[1], 20240301000000, &mut out, &mut table).unwrap();
    assert_eq!((made.image, made.table, made.entries), (&empty[..], &[][..], 0));
    assert_eq!((out[12..].to_vec(), table), (vec![7, 7], [7]));
    assert_eq!(make_room(&full, &[], 20240301000000, &mut out, &mut table), Err(Refusal { number: 1, detail: 0 }));
    assert_eq!(make_room(&full, &[1], 20240301000000, &mut [0; 11], &mut table), Err(Refusal { number: 9, detail: 0 }));
}

#[test]
fn anchors_of_a_country() {
    let anchor = include_bytes!("../../../tests/data/made/ut-anchor-1.der");
    let (items, size) = ([&anchor[..], &[5]].concat(), anchor.len() as u32);
    let mut out = vec![0; 3000];
    let mut written = |told: &[u8; 4]| {
        vrbolist::write(&items, &[1, 1], &[1, 1], &[size, 1], told, 2, 20240301, &mut out).unwrap().to_vec()
    };
    let (good, bad) = (written(b"UT\0\0"), written(b"UTUT"));
    for image in [&good, &bad] {
        assert_eq!(anchors(image, *b"UT"), Ok(vec![0]));
        assert_eq!(anchors(image, *b"XO"), Ok(vec![]));
        assert_eq!(anchors(image, *b"ut"), Err(Refusal { number: 1, detail: 0 }));
    }
    // The index answers only where the check of its letters says yes.
    let checked = lettered(&good).unwrap().unwrap();
    assert_eq!(checked.anchors(*b"UT"), Ok(vec![0]));
    assert_eq!(checked.anchors(*b"XO"), Ok(vec![]));
    assert_eq!(checked.anchors(*b"U["), Err(Refusal { number: 1, detail: 0 }));
    assert_eq!(lettered(&bad), Ok(None));
    assert_eq!(lettered(&good[1..]).err(), Some(Refusal { number: 5, detail: 5 }));
}

#[test]
fn a_refusal_says_what_it_means() {
    let told = Refusal { number: 4, detail: 12 }.to_string();
    assert!(told.contains("rule 12"), "{}", told);
}

#[test]
fn burnt_before_any_opening() {
    let log = [3, 1, 0, 0, 0, 0, 0, 0];
    let mut list = [7; 2];
    assert_eq!(replay(&log, &mut list), Ok(&[0][..]));
    assert_eq!(list, [0, 7]);
    assert_eq!(replay(&log, &mut []), Err(Refusal { number: 9, detail: 0 }));
    assert_eq!(replay(&log[1..], &mut []), Err(Refusal { number: 1, detail: 0 }));
    assert_eq!(replay(&[], &mut []), Ok(&[][..]));
}
