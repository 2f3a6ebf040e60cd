//! Trust images of both versions: reading and writing.

use make::image::{letters, Image as Made, BREAKS, BREAKS_OF_2};
use make::random::Random;
use plain::{entry, image, image_for_day, write, Entry, Image, Written};

/// The smallest image of a version.
fn smallest(version: u8) -> [u8; 12] {
    [0, 0, 0, 0, 0, 0, 0, version, 0x01, 0x34, 0xD7, 0xAD]
}

const DAY: u64 = 20240301;
const WIDTHS: [(u64, usize); 2] = [(1, 8), (2, 12)];

/// An image of items of these lengths, all anchors, with letters by their place.
fn made(version: u64, lengths: &[u32]) -> Vec<u8> {
    let sum: u32 = lengths.iter().sum();
    let items: Vec<u8> = (0..sum).map(|octet| octet as u8).collect();
    let width = WIDTHS[version as usize - 1].1;
    let mut out = vec![0; sum as usize + width * lengths.len() + 12];
    let ones = vec![1; lengths.len()];
    let column: Vec<u8> = (0..lengths.len()).flat_map(|place| country(version, place)).collect();
    let answer = write(&items, &ones, &ones, lengths, &column, version, DAY, &mut out);
    assert_eq!(answer, Written { number: 0, detail: 0, length: out.len() as u64 });
    out
}

/// The letters that `made` gives to a place.
fn country(version: u64, place: usize) -> [u8; 2] {
    match version {
        1 => [0, 0],
        _ => [place as u8, 255 - place as u8],
    }
}

fn rule(image: &[u8]) -> u64 {
    let answer = plain::image(image);
    assert_eq!(answer, Image { number: 5, detail: answer.detail, ..Image::default() });
    answer.detail
}

/// The image with these bytes put at an offset that counts back from its end.
fn with(image: &[u8], back: usize, bytes: &[u8]) -> Vec<u8> {
    let mut changed = image.to_vec();
    let at = image.len() - back;
    changed[at..at + bytes.len()].copy_from_slice(bytes);
    changed
}

#[test]
fn the_smallest() {
    for version in [1, 2] {
        let wanted = smallest(version as u8);
        assert_eq!(image(&wanted), Image { number: 0, detail: 0, entries: 0, day: DAY, version });
        let mut out = [7; 14];
        let answer = write(&[], &[], &[], &[], &[], version, DAY, &mut out);
        assert_eq!(answer, Written { number: 0, detail: 0, length: 12 });
        assert_eq!(out[..12], wanted);
        assert_eq!(out[12..], [7, 7]);
    }
}

#[test]
fn the_bytes_of_version_2() {
    let mut out = [7; 45];
    let answer = write(&[1, 2, 3], &[1, 4], &[1, 0], &[1, 2], b"UT\0\xFF", 2, DAY, &mut out);
    assert_eq!(answer.length, 39);
    assert_eq!(out[..3], [1, 2, 3]);
    assert_eq!(out[3..15], [1, 1, 0, 1, 0, 0, 0, 0, b'U', b'T', 0, 0]);
    assert_eq!(out[15..27], [4, 0, 0, 2, 0, 0, 0, 1, 0, 255, 0, 0]);
    assert_eq!(out[27..39], [0, 0, 0, 3, 0, 2, 0, 2, 0x01, 0x34, 0xD7, 0xAD]);
    assert_eq!(out[39..], [7; 6]);
}

#[test]
fn each_rule_alone() {
    for (version, width) in WIDTHS {
        let good = made(version, &[3, 5]);
        assert_eq!(image(&good), Image { number: 0, detail: 0, entries: 2, day: DAY, version });
        assert_eq!(rule(&[]), 1);
        assert_eq!(rule(&smallest(version as u8)[1..]), 1);
        assert_eq!(rule(&vec![0; 262_145]), 1);
        assert_eq!(rule(&vec![0; 262_144]), 2);
        for other in [[0, 0], [0, 3], [1, 1], [1, 2], [2, 0], [255, 255]] {
            assert_eq!(rule(&with(&good, 6, &other)), 2);
        }
        assert_eq!(rule(&with(&good, 8, &[0, 97])), 3);
        assert_eq!(rule(&with(&good, 8, &[255, 255])), 3);
        for day in [19491231u32, 21000101, 20240230, 20241301, 0, u32::MAX] {
            assert_eq!(rule(&with(&good, 4, &day.to_be_bytes())), 4);
        }
        for start in [7u32, 9, 0, u32::MAX, 0u32.wrapping_sub(20)] {
            assert_eq!(rule(&with(&good, 12, &start.to_be_bytes())), 5);
        }
        assert_eq!(rule(&with(&good, 8, &[0, 1])), 5);
        assert_eq!(rule(&with(&good, 6, &[0, 3 - version as u8])), 5);
        let second = 12 + width;
        for (kind, flags) in [(0, 0), (5, 0), (255, 0), (1, 2), (2, 1), (3, 1), (4, 1), (1, 255)] {
            assert_eq!(rule(&with(&good, second, &[kind, flags])), 6);
        }
        for (kind, flags) in [(1, 0), (1, 1), (2, 0), (3, 0), (4, 0)] {
            assert_eq!(image(&with(&good, second, &[kind, flags])).number, 0);
        }
        assert_eq!(rule(&with(&good, second - 2, &[0, 0])), 6);
        assert_eq!(rule(&with(&good, second - 2, &16_385u16.to_be_bytes())), 6);
        assert_eq!(rule(&with(&good, second - 4, &[0, 0, 0, 4])), 6);
        assert_eq!(rule(&with(&good, second - 2, &[0, 6])), 7);
        assert_eq!(rule(&with(&good, second - 2, &16_384u16.to_be_bytes())), 7);
    }
}

#[test]
fn letters_are_free_and_padding_is_not() {
    let good = made(2, &[3, 5]);
    for place in 0..2 {
        let letters = 12 + 12 * (2 - place) - 8;
        for octet in 0..=255 {
            assert_eq!(image(&with(&good, letters, &[octet, 255 - octet])).number, 0);
            for padding in [[octet, 0], [0, octet]] {
                let told = image(&with(&good, letters - 2, &padding));
                assert_eq!((told.number, told.detail), if octet == 0 { (0, 0) } else { (5, 6) });
            }
        }
    }
}

#[test]
fn entries_of_the_wrong_width() {
    // The index of version 1, long enough for entries of 12 octets: the second starts in the middle of the second.
    let one = made(1, &[3, 5]);
    let mut labelled = with(&one, 6, &[0, 2]);
    labelled = with(&labelled, 12, &[0, 0, 0, 0]);
    assert_eq!(rule(&labelled), 6);
    // And of version 2 for entries of 8 octets.
    let two = made(2, &[3, 5]);
    let mut labelled = with(&two, 6, &[0, 1]);
    labelled = with(&labelled, 12, &[0, 0, 0, 16]);
    assert_eq!(rule(&labelled), 6);
}

#[test]
fn every_way_breaks_its_rule() {
    let mut random = Random::new(3);
    for (version, ways) in [(1, BREAKS), (2, BREAKS), (2, BREAKS_OF_2)] {
        for way in ways {
            for turn in 0..20 {
                let mut good = Made { version, ..Made::new(DAY as u32) };
                for length in [3, 5, 1 + turn] {
                    good.add_of(4, 0, letters(&mut random), vec![7; length]);
                }
                let mut octets = good.encode();
                assert_eq!(image(&octets).number, 0);
                (way.apply)(&mut octets, &mut random);
                assert_eq!(rule(&octets), way.rule, "version {version}: {}", way.what);
            }
        }
    }
}

#[test]
fn order_of_rules() {
    for (version, width) in WIDTHS {
        let good = made(version, &[3, 5]);
        // Version, entries, day, index start, entry, sum all wrong; then each put right.
        let first = 12 + 2 * width;
        let mut bad = with(&good, first, &[0]);
        bad = with(&bad, 12, &[0, 0, 0, 1, 0, 97, 0, 3, 0, 0, 0, 0]);
        assert_eq!(rule(&bad), 2);
        bad = with(&bad, 6, &[0, version as u8]);
        assert_eq!(rule(&bad), 3);
        bad = with(&bad, 8, &[0, 2]);
        assert_eq!(rule(&bad), 4);
        bad = with(&bad, 4, &20240301u32.to_be_bytes());
        assert_eq!(rule(&bad), 5);
        bad = with(&bad, 12, &[0, 0, 0, 8]);
        assert_eq!(rule(&bad), 6);
        bad = with(&bad, first, &[1]);
        assert_eq!(image(&bad).number, 0);
    }
}

#[test]
fn entries() {
    let refused = |number, detail| Entry { number, detail, ..Entry::default() };
    for (version, width) in WIDTHS {
        let full = made(version, &[1; 96]);
        assert_eq!(image(&full), Image { number: 0, detail: 0, entries: 96, day: DAY, version });
        let last = Entry { kind: 1, flags: 1, length: 1, offset: 95, country: country(version, 95), ..refused(0, 0) };
        assert_eq!(entry(&full, 95), last);
        // 97 entries, good in every other way.
        let mut over = vec![0; 97];
        for offset in 0..97 {
            let line = [1, 1, 0, 1, 0, 0, 0, offset, 0, 0, 0, 0];
            over.extend(&line[..width]);
        }
        over.extend([0, 0, 0, 97, 0, 97, 0, version as u8, 0x01, 0x34, 0xD7, 0xAD]);
        assert_eq!(rule(&over), 3);
        for place in [96, 97, 256, 1 << 32, u64::MAX] {
            assert_eq!(entry(&full, place), refused(1, 0));
        }
        assert_eq!(entry(&smallest(version as u8), 0), refused(1, 0));
        assert_eq!(entry(&over, 200), refused(5, 3));
        let two = made(version, &[3, 5]);
        let second = Entry { kind: 1, flags: 1, length: 5, offset: 3, country: country(version, 1), ..refused(0, 0) };
        assert_eq!(entry(&two, 1), second);
    }
}

#[test]
fn for_a_day() {
    let refused = |number, detail| Image { number, detail, ..Image::default() };
    for version in [1, 2] {
        let good = smallest(version);
        assert_eq!(image_for_day(&good, DAY), image(&good));
        assert_eq!(image_for_day(&good, DAY + 1), refused(6, 0));
        assert_eq!(image_for_day(&good, DAY + (1 << 32)), refused(1, 0));
        assert_eq!(image_for_day(&good[1..], DAY + 1), refused(5, 1));
        for day in [0, 20240230, 19491231, 21000101] {
            assert_eq!(image_for_day(&good[1..], day), refused(1, 0));
        }
    }
}

/// What a writer is given, and what it answers.
struct Asked<'a> {
    items: &'a [u8],
    kinds: &'a [u8],
    flags: &'a [u8],
    lengths: &'a [u32],
    letters: &'a [u8],
    version: u64,
    day: u64,
    room: usize,
}

impl Asked<'_> {
    /// It is refused with this number, and the output stays.
    fn refused(&self, number: u64) {
        let mut out = vec![9; self.room];
        let Asked { items, kinds, flags, lengths, letters, version, day, .. } = *self;
        let answer = write(items, kinds, flags, lengths, letters, version, day, &mut out);
        assert_eq!(answer, Written { number, detail: 0, length: 0 });
        assert!(out.iter().all(|&byte| byte == 9));
    }
}

#[test]
fn writer_refuses() {
    for (version, width) in WIDTHS {
        let good = || Asked {
            items: &[1, 2, 3],
            kinds: &[1],
            flags: &[0],
            lengths: &[3],
            letters: &[0, 0],
            version,
            day: DAY,
            room: 99,
        };
        Asked { kinds: &[0], ..good() }.refused(1);
        Asked { kinds: &[5], ..good() }.refused(1);
        Asked { kinds: &[2], flags: &[1], ..good() }.refused(1);
        Asked { flags: &[2], ..good() }.refused(1);
        Asked { kinds: &[1, 2], flags: &[0, 0], lengths: &[3, 0], letters: &[0; 4], ..good() }.refused(1);
        for length in [0, 2, 4, 3 + (1 << 16)] {
            Asked { lengths: &[length], ..good() }.refused(1);
        }
        Asked { flags: &[], ..good() }.refused(1);
        Asked { flags: &[0, 0], ..good() }.refused(1);
        Asked { lengths: &[3, 0], ..good() }.refused(1);
        Asked { letters: &[], ..good() }.refused(1);
        Asked { letters: &[0], ..good() }.refused(1);
        Asked { letters: &[0, 0, 0], ..good() }.refused(1);
        Asked { letters: &[0, 0, 0, 0], ..good() }.refused(1);
        for other in [0, 3, 256, version + (1 << 16), version + (1 << 32), u64::MAX] {
            Asked { version: other, ..good() }.refused(1);
        }
        Asked { day: 20240230, ..good() }.refused(1);
        Asked { day: DAY + (1 << 32), ..good() }.refused(1);
        let (items, lengths) = ([0; 97], [1; 97]);
        let many = Asked { items: &items, kinds: &[1; 97], flags: &[0; 97], lengths: &lengths, ..good() };
        Asked { letters: &[0; 194], room: 9_999, ..many }.refused(1);
        Asked { items: &[0; 16_385], lengths: &[16_385], room: 99_999, ..good() }.refused(1);
        Asked { room: 3 + width + 12 - 1, ..good() }.refused(9);
        Asked { room: 0, letters: &[0, 1, 0], ..good() }.refused(1);
    }
}

#[test]
fn letters_of_version_1_are_zeros() {
    for place in 0..4 {
        for octet in [1, b'U', 255] {
            let mut letters = [0; 4];
            letters[place] = octet;
            let asked = Asked {
                items: &[1, 2],
                kinds: &[2, 3],
                flags: &[0, 0],
                lengths: &[1, 1],
                letters: &letters,
                version: 1,
                day: DAY,
                room: 99,
            };
            asked.refused(1);
            Asked { version: 2, room: 37, ..asked }.refused(9);
        }
    }
}

#[test]
fn writer_at_the_limit() {
    for (version, width) in WIDTHS {
        // 15 x 16,384 + 16,384 - width x 16 - 12 fits just so.
        let mut lengths = [16_384; 16];
        lengths[15] = (16_384 - width * 16 - 12) as u32;
        let items = vec![5; 262_144 - width * 16 - 11];
        let fits = &items[1..];
        let (kinds, flags, letters) = ([4; 16], [0; 16], [0; 32]);
        let mut out = vec![0; 262_144];
        let answer = write(fits, &kinds, &flags, &lengths, &letters, version, DAY, &mut out);
        assert_eq!(answer.length, 262_144);
        assert_eq!(image(&out).entries, 16);
        let good = || Asked {
            items: fits,
            kinds: &kinds,
            flags: &flags,
            lengths: &lengths,
            letters: &letters,
            version,
            day: DAY,
            room: 262_143,
        };
        good().refused(9);
        let mut longer = lengths;
        longer[15] += 1;
        let long = || Asked { items: &items, lengths: &longer, ..good() };
        Asked { room: 300_000, ..long() }.refused(3);
        Asked { room: 0, ..long() }.refused(3);
        Asked { room: 0, flags: &[1; 16], ..long() }.refused(1);
    }
}
