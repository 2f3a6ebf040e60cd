//! The moves between the versions of images, and the check of letters.

use make::certificate::Certificate;
use make::crl::Crl;
use make::image::{confuse, Image, BREAKS, BREAKS_OF_2};
use make::questions::{Question, Source};
use make::random::Random;
use make::world::World;
use plain::{entry, image, letters, move_to_1, move_to_2, Letters, Written};

const DAY: u32 = 20240301;

fn certificate(role: u64, country: [u8; 2]) -> Vec<u8> {
    Certificate::of_country(role, country).encode()
}

/// One item of each kind, and three that fail: of another role, of no role, and no DER.
fn items() -> Image {
    let mut made = Image::new(DAY);
    made.add_of(1, 1, *b"AB", certificate(1, *b"AB"));
    made.add_of(1, 0, *b"CD", certificate(1, *b"CD"));
    made.add_of(2, 0, *b"EF", certificate(2, *b"EF"));
    made.add_of(3, 0, *b"GH", certificate(3, *b"GH"));
    made.add_of(4, 0, *b"UT", Crl::typical(2).encode());
    made.add_of(3, 0, [0, 0], certificate(1, *b"IJ"));
    made.add_of(4, 0, [0, 0], certificate(3, *b"KL"));
    made.add_of(2, 0, [0, 0], vec![1, 2, 3]);
    made
}

fn told(image: &[u8]) -> u64 {
    let answer = letters(image);
    assert_eq!(answer, Letters { number: 0, detail: 0, letters_true: answer.letters_true });
    answer.letters_true
}

type Move = fn(&[u8], &mut [u8]) -> Written;

/// The whole of what is written, with bytes beyond that stay.
fn moved(to: Move, image: &[u8], length: usize) -> Vec<u8> {
    let mut out = vec![0xA5; length + 9];
    assert_eq!(to(image, &mut out), Written { number: 0, detail: 0, length: length as u64 });
    assert_eq!(out.split_off(length), [0xA5; 9]);
    let mut exact = vec![0; length];
    assert_eq!(to(image, &mut exact).number, 0);
    assert_eq!(exact, out);
    out
}

/// It is refused, and the output stays.
fn refused(to: Move, image: &[u8], room: usize, number: u64, detail: u64) {
    let mut out = vec![0xA5; room];
    assert_eq!(to(image, &mut out), Written { number, detail, length: 0 });
    assert!(out.iter().all(|&octet| octet == 0xA5));
}

#[test]
fn forth_and_back() {
    let made = items();
    let (one, two) = (made.encode(), made.of_version(2).encode());
    assert_eq!(moved(move_to_2, &one, two.len()), two);
    assert_eq!(moved(move_to_1, &two, one.len()), one);
    assert_eq!(told(&two), 1);
}

#[test]
fn every_letter_is_checked() {
    let made = items();
    let one = made.encode();
    for place in 0..made.items.len() {
        for which in 0..2 {
            for octet in [0, b'A', b'Z', 255, made.letters[place][which] ^ 0x20] {
                let mut changed = made.of_version(2);
                changed.letters[place][which] = octet;
                let two = changed.encode();
                assert_eq!(image(&two).number, 0);
                assert_eq!(told(&two) == 1, changed.letters == made.letters, "place {place}");
                // The letters are dropped, whatever they are.
                assert_eq!(moved(move_to_1, &two, one.len()), one);
            }
        }
    }
}

#[test]
fn letters_of_another_place() {
    let mut made = items().of_version(2);
    made.letters.rotate_left(1);
    assert_eq!(told(&made.encode()), 0);
    // An item that fails has no letters, also where its issuer has some.
    let mut named = items().of_version(2);
    named.letters[5] = *b"IJ";
    assert_eq!(told(&named.encode()), 0);
}

#[test]
fn time_and_flags_play_no_part() {
    let mut made = Image { version: 2, ..Image::new(20991231) };
    made.add_of(1, 0, *b"AB", certificate(1, *b"AB"));
    assert_eq!(told(&made.encode()), 1);
    made.flags[0] = 1;
    assert_eq!(told(&made.encode()), 1);
}

#[test]
fn images_without_items() {
    let (one, two) = (Image::new(DAY).encode(), Image::new(DAY).of_version(2).encode());
    assert_eq!(told(&two), 1);
    assert_eq!(moved(move_to_2, &one, 12), two);
    assert_eq!(moved(move_to_1, &two, 12), one);
}

#[test]
fn another_version_breaks_rule_2() {
    let (one, two) = (items().encode(), items().of_version(2).encode());
    refused(move_to_2, &two, 99_999, 5, 2);
    refused(move_to_1, &one, 99_999, 5, 2);
    assert_eq!(letters(&one), Letters { number: 5, detail: 2, letters_true: 0 });
    // The smallest rule broken is told: 2 before 3, and 1 before 2.
    let entries = |image: &[u8]| {
        let mut changed = image.to_vec();
        let at = changed.len() - 8;
        changed[at..at + 2].copy_from_slice(&[0, 97]);
        changed
    };
    refused(move_to_2, &entries(&two), 99_999, 5, 2);
    refused(move_to_1, &entries(&one), 99_999, 5, 2);
    assert_eq!(letters(&entries(&one)).detail, 2);
    refused(move_to_2, &entries(&one), 99_999, 5, 3);
    refused(move_to_1, &entries(&two), 99_999, 5, 3);
    assert_eq!(letters(&entries(&two)).detail, 3);
    for bytes in [Vec::new(), vec![0; 11], vec![0; 262_145]] {
        refused(move_to_2, &bytes, 99, 5, 1);
        refused(move_to_1, &bytes, 99, 5, 1);
        assert_eq!(letters(&bytes), Letters { number: 5, detail: 1, letters_true: 0 });
    }
}

#[test]
fn every_rule_is_told() {
    let mut random = Random::new(5);
    for (version, ways) in [(1, BREAKS), (2, BREAKS), (2, BREAKS_OF_2)] {
        for way in ways {
            let mut octets = items().of_version(version).encode();
            (way.apply)(&mut octets, &mut random);
            let (to, other): (Move, Move) = if version == 1 { (move_to_2, move_to_1) } else { (move_to_1, move_to_2) };
            // With the other label the image breaks rule 2 here, and rule 5 there.
            let (here, there) = match (way.what, way.rule) {
                ("the other version's label", _) => (2, 5),
                (_, rule) => (rule, rule.min(2)),
            };
            refused(to, &octets, 99_999, 5, here);
            refused(other, &octets, 99_999, 5, there);
            assert_eq!(letters(&octets).detail, if version == 2 { here } else { there }, "{}", way.what);
        }
    }
}

#[test]
fn widths_confused() {
    for version in [1, 2] {
        let mut octets = items().of_version(version).encode();
        confuse(&mut octets);
        let to: Move = if version == 1 { move_to_1 } else { move_to_2 };
        refused(to, &octets, 99_999, 5, 6);
    }
}

#[test]
fn short_outputs() {
    let made = items();
    let (one, two) = (made.encode(), made.of_version(2).encode());
    for room in [0, 1, one.len(), two.len() - 1] {
        refused(move_to_2, &one, room, 9, 0);
    }
    for room in [0, 1, one.len() - 1] {
        refused(move_to_1, &two, room, 9, 0);
    }
}

#[test]
fn sizes_at_the_limit() {
    let mut random = Random::new(1);
    for bytes in [262_143, 262_144, 262_145, 262_144 + 64] {
        let made = Image::long(&mut random, bytes);
        let one = made.encode();
        assert_eq!(one.len(), bytes - 64);
        assert_eq!(image(&one).number, 0);
        match bytes {
            262_143 | 262_144 => {
                let two = moved(move_to_2, &one, bytes);
                assert_eq!(moved(move_to_1, &two, one.len()), one);
                refused(move_to_2, &one, bytes - 1, 9, 0);
            }
            // 3 comes before 9.
            _ => [0, bytes - 1, bytes, 300_000].iter().for_each(|&room| refused(move_to_2, &one, room, 3, 0)),
        }
    }
}

#[test]
fn ninety_six_entries() {
    let mut made = Image::new(DAY);
    for place in 0..96 {
        let country = [b'A' + place % 26, b'A' + place / 26];
        made.add_of(3, 0, country, certificate(3, country));
    }
    let (one, two) = (made.encode(), made.of_version(2).encode());
    assert_eq!(moved(move_to_2, &one, two.len()), two);
    assert_eq!(moved(move_to_1, &two, one.len()), one);
    assert_eq!(told(&two), 1);
    for place in 0..96 {
        let mut changed = made.of_version(2);
        changed.letters[place] = [0, 0];
        assert_eq!(told(&changed.encode()), 0);
    }
}

/// The maker of worlds knows the letters by itself: it made the items.
#[test]
fn worlds_have_true_letters() {
    let mut random = Random::new(17);
    let mut failing = 0;
    for _ in 0..60 {
        let World { image, lettered, .. } = World::varied(&mut random);
        assert_eq!(moved(move_to_2, &image, lettered.len()), lettered);
        assert_eq!(told(&lettered), 1);
        failing += (0..plain::image(&image).entries).filter(|&place| entry(&lettered, place).country == [0, 0]).count();
    }
    assert!(failing > 20, "{failing} items fail");
}

#[test]
fn back_after_forth_is_the_same() {
    let mut source = Source::new(11);
    let (mut yes, mut no, mut there) = (0, 0, 0);
    while yes < 30 || no < 30 || there < 30 {
        match source.next() {
            Question::Letters(octets) if image(&octets).version == 2 => match told(&octets) {
                1 => yes += 1,
                _ => no += 1,
            },
            Question::MoveTo2(octets, _) if image(&octets).version == 1 => {
                let length = octets.len() + 4 * image(&octets).entries as usize;
                if length <= 262_144 {
                    let two = moved(move_to_2, &octets, length);
                    assert_eq!(told(&two), 1);
                    assert_eq!(moved(move_to_1, &two, octets.len()), octets);
                    there += 1;
                }
            }
            _ => {}
        }
    }
}
