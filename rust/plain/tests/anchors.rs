//! The anchors of a country.

use make::certificate::Certificate;
use make::crl::Crl;
use make::image::{Image, BREAKS, BREAKS_OF_2};
use make::questions::{Question, Source};
use make::random::Random;
use plain::{anchors, anchors_by_index, entry, image, letters, Anchors};

const DAY: u32 = 20240301;

fn certificate(role: u64, country: [u8; 2]) -> Vec<u8> {
    Certificate::of_country(role, country).encode()
}

/// Anchors of two countries among others; one is not enabled and one does not pass.
fn items() -> Image {
    let mut made = Image::new(DAY);
    made.add_of(3, 0, *b"UT", certificate(3, *b"UT"));
    made.add_of(1, 1, *b"UT", certificate(1, *b"UT"));
    made.add_of(1, 1, *b"XO", certificate(1, *b"XO"));
    made.add_of(1, 0, *b"UT", certificate(1, *b"UT"));
    made.add_of(1, 1, [0, 0], certificate(3, *b"UT"));
    made.add_of(2, 0, *b"UT", certificate(2, *b"UT"));
    made.add_of(4, 0, *b"UT", Crl::typical(2).encode());
    made.add_of(1, 1, *b"UT", certificate(1, *b"UT"));
    made
}

fn listed(places: &[u8]) -> Anchors {
    let mut slots = [255; 96];
    slots[..places.len()].copy_from_slice(places);
    Anchors { number: 0, detail: 0, count: places.len() as u64, places: slots }
}

fn refused(number: u64, detail: u64) -> Anchors {
    Anchors { number, detail, count: 0, places: [255; 96] }
}

fn both(image: &[u8], country: &[u8; 2], full: Anchors, short: Anchors) {
    let [first, second] = country.map(u64::from);
    assert_eq!(anchors(image, first, second), full);
    assert_eq!(anchors_by_index(image, first, second), short);
}

#[test]
fn of_each_country() {
    let (one, two) = (items().encode(), items().of_version(2).encode());
    assert_eq!(letters(&two).letters_true, 1);
    for (country, places) in [(b"UT", &[1, 7][..]), (b"XO", &[2]), (b"TU", &[]), (b"UX", &[]), (b"AA", &[])] {
        both(&one, country, listed(places), refused(5, 2));
        both(&two, country, listed(places), listed(places));
    }
}

#[test]
fn as_many_as_there_are() {
    for many in [0, 1, 95, 96] {
        let mut made = Image::new(DAY);
        for _ in 0..many {
            made.add_of(1, 1, *b"UT", certificate(1, *b"UT"));
        }
        let places: Vec<u8> = (0..many).collect();
        both(&made.of_version(2).encode(), b"UT", listed(&places), listed(&places));
    }
}

#[test]
fn false_letters_are_those_of_the_index_alone() {
    let mut made = items();
    made.add_of(1, 1, *b"XO", certificate(1, *b"UT"));
    made.add_of(1, 1, *b"UT", vec![1, 2, 3]);
    let two = made.of_version(2).encode();
    both(&two, b"UT", listed(&[1, 7, 8]), listed(&[1, 7, 9]));
    both(&two, b"XO", listed(&[2]), listed(&[2, 8]));
}

#[test]
fn letters_are_capitals() {
    for image in [&items().of_version(2).encode()[..], &[]] {
        for wrong in [0, 1, 64, 91, 97, 117, 122, 255, 256, 256 + 85, 1 << 32 | 85, u64::MAX] {
            for (first, second) in [(wrong, 84), (85, wrong), (wrong, wrong)] {
                assert_eq!(anchors(image, first, second), refused(1, 0));
                assert_eq!(anchors_by_index(image, first, second), refused(1, 0));
            }
        }
    }
}

#[test]
fn the_smallest_broken_rule_is_told() {
    let mut random = Random::new(6);
    for (version, ways) in [(1, BREAKS), (2, BREAKS), (2, BREAKS_OF_2)] {
        for way in ways {
            let mut broken = items().of_version(version).encode();
            (way.apply)(&mut broken, &mut random);
            let told = image(&broken);
            assert_eq!(told.number, 5);
            // By the index any version but 2 breaks rule 2.
            let lettered = broken.len() < 12 || broken[broken.len() - 6..][..2] == [0, 2];
            let short = if lettered { told.detail } else { told.detail.min(2) };
            both(&broken, b"UT", refused(5, told.detail), refused(5, short));
        }
    }
}

/// What is listed follows from the entries and certificates, one by one, and where letters are true both ways are one.
#[test]
fn answers_follow_the_definition() {
    let (mut source, mut same) = (Source::new(41), 0);
    for _ in 0..40_000 {
        if let Question::Anchors(octets, first, second) = source.next() {
            let told = anchors(&octets, first, second);
            if told.number == 0 {
                let of = |place: &u8| {
                    let line = entry(&octets, *place as u64);
                    let item = &octets[line.offset as usize..][..line.length as usize];
                    let says = plain::certificate(item, 1);
                    line.kind == 1
                        && line.flags == 1
                        && says.number == 0
                        && says.country.map(u64::from) == [first, second]
                };
                let places: Vec<u8> = (0..image(&octets).entries as u8).filter(of).collect();
                assert_eq!(told, listed(&places));
            }
            if letters(&octets).letters_true == 1 {
                assert_eq!(anchors_by_index(&octets, first, second), told);
                same += (told.count > 0) as u64;
            }
        }
    }
    assert!(same > 50, "{same}");
}
