//! Numbers at the ends of their widths for every numeric argument, and empty
//! slices for every slice.

#![forbid(unsafe_code)]

use differ::{compare, Answer, Library, Plain};
use make::certificate::{Certificate, ROLES};
use make::columns::Columns;
use make::crl::Crl;
use make::image::Image;
use make::questions::Question;
use make::random::Random;

const DAY: u64 = 20240301;
const MOMENT: u64 = 20240301120000;

/// Both readers give this answer.
fn ask(question: Question) -> Answer {
    compare(&Library, &Plain, &question).unwrap_or_else(|difference| panic!("{difference}"))
}

/// Around each power of two, each end of signed and unsigned numbers, and what
/// becomes `good` where a number is cut to fewer bits.
fn numbers(good: &[u64]) -> Vec<u64> {
    let mut numbers: Vec<u64> = (0..=300).collect();
    for bit in 7..64 {
        let power = 1u64 << bit;
        numbers.extend([power - 1, power, power + 1]);
        numbers.extend(good.iter().flat_map(|&number| [number.wrapping_add(power), number ^ power]));
    }
    numbers.extend(u64::MAX - 300..=u64::MAX);
    for &number in good {
        numbers.extend([number - 1, number, number + 1, number.wrapping_neg(), !number]);
        numbers.extend([1, 10, 100, 1_000_000].map(|times| number.wrapping_mul(times)));
    }
    numbers
}

/// Items of these kinds, flags and lengths, to be written without letters.
fn written(items: &[(u8, u8, u32)], version: u64, day: u64, room: usize) -> Question {
    Question::Write {
        items: vec![9; items.iter().map(|item| item.2 as usize).sum::<usize>().min(300)],
        kinds: items.iter().map(|item| item.0).collect(),
        flags: items.iter().map(|item| item.1).collect(),
        lengths: items.iter().map(|item| item.2).collect(),
        letters: vec![0; 2 * items.len()],
        version,
        day,
        room,
    }
}

/// An anchor, a signer, a CRL.
fn image() -> Vec<u8> {
    images()[0].clone()
}

/// The same in both versions.
fn images() -> [Vec<u8>; 2] {
    let mut made = Image::new(DAY as u32);
    made.add(1, 1, Certificate::typical(1).encode());
    made.add(3, 0, Certificate::typical(3).encode());
    made.add_of(4, 0, *b"UT", Crl::typical(2).encode());
    [made.encode(), made.of_version(2).encode()]
}

#[test]
fn roles() {
    for role in ROLES {
        let item = Certificate::typical(role).encode();
        assert_eq!(ask(Question::Certificate(item.clone(), role)).head(), (0, 0));
        for number in numbers(&ROLES) {
            let told = ask(Question::Certificate(item.clone(), number));
            assert!(ROLES.contains(&number) || told.head() == (1, 0));
        }
    }
}

#[test]
fn days() {
    let crl = Crl::typical(2).encode();
    let passes = |told: Answer| told.head() == (0, 0);
    assert!(passes(ask(Question::Age(crl.clone(), DAY))));
    for number in numbers(&[19500101, DAY, 20991231]) {
        ask(Question::Days(number, DAY));
        ask(Question::Days(DAY, number));
        ask(Question::Days(number, number));
        ask(Question::Age(crl.clone(), number));
        ask(Question::ImageForDay(image(), number));
        ask(Question::ImageForDay(Vec::new(), number));
        ask(written(&[(4, 0, 1)], 1, number, 30));
        ask(written(&[(4, 0, 1)], 2, number, 30));
    }
    assert!(passes(ask(Question::ImageForDay(image(), DAY))));
}

#[test]
fn every_day_number_of_two_years() {
    for number in (20230000..=20250000).chain(19491200..=19500140).chain(20991200..=21000140) {
        ask(Question::Days(number, DAY));
    }
}

#[test]
fn places() {
    for image in images() {
        for number in numbers(&[1, 2, 3]) {
            ask(Question::Entry(image.clone(), number));
        }
        assert_eq!(ask(Question::Entry(image.clone(), 2)).head(), (0, 0));
        assert_eq!(ask(Question::Entry(image, u64::MAX)).head(), (1, 0));
    }
}

#[test]
fn moments_and_targets() {
    let chain = |moment, target| {
        let table = vec![1, 1, 1, 0, 0, 0, 0, 0, 0];
        ask(Question::Chain { image: image(), table, moment, target }).head()
    };
    for number in numbers(&[MOMENT, 19500101000000, 20991231235959]) {
        chain(number, 1);
    }
    for number in numbers(&[1]) {
        assert_eq!(chain(MOMENT, number) == (1, 0), number != 1);
    }
    for number in [0, u64::MAX, i64::MAX as u64, 1 << 63] {
        assert_eq!(chain(number, number), (1, 0));
    }
}

#[test]
fn proposals() {
    let propose = |moment, target, places: &[u8]| {
        let table = vec![1, 1, 1, 0, 0, 0, 0, 0, 0];
        ask(Question::Proposal { image: image(), table, moment, target, places: places.to_vec() }).head()
    };
    for number in numbers(&[MOMENT, 19500101000000, 20991231235959]) {
        propose(number, 1, &[0, 1]);
    }
    for number in numbers(&[1]) {
        assert_eq!(propose(MOMENT, number, &[0, 1]) == (1, 0), number != 1);
    }
    for place in 0..=255 {
        assert_eq!(propose(MOMENT, 1, &[place, 1]) == (1, 0), place > 2);
        assert_eq!(propose(MOMENT, 1, &[0, place]) == (1, 0), place > 2);
        assert_eq!(propose(MOMENT, 1, &[0, place, 1]) == (1, 0), place > 2);
    }
    for length in (0..=300).chain([65_535, 65_536, 65_538]) {
        assert_eq!(propose(MOMENT, 1, &vec![0; length]) == (1, 0), !(2..=96).contains(&length));
    }
}

#[test]
fn columns_of_the_writer() {
    let write = |items: usize, kinds: &[u8], flags: &[u8], lengths: &[u32]| {
        let (items, kinds, flags, lengths) = (vec![9; items], kinds.to_vec(), flags.to_vec(), lengths.to_vec());
        let letters = vec![0; 2 * kinds.len()];
        let question = |version| Question::Write {
            items: items.clone(),
            kinds: kinds.clone(),
            flags: flags.clone(),
            lengths: lengths.clone(),
            letters: letters.clone(),
            version,
            day: DAY,
            room: 300,
        };
        let head = ask(question(2)).head();
        assert_eq!(ask(question(1)).head(), head);
        head
    };
    for kind in 0..=255 {
        for flags in [0, 1, 2, 127, 128, 129, 255] {
            write(1, &[kind], &[flags], &[1]);
        }
        for good in 1..=4 {
            write(1, &[good], &[kind], &[1]);
        }
    }
    for bit in 0..32 {
        for length in [(1 << bit) - 1, 1 << bit, (1u32 << bit) + 1, u32::MAX - bit] {
            write(1, &[4], &[0], &[length]);
            // The two add up to 1 or 2 where a sum is cut to 32 bits.
            write(1, &[4, 4], &[0, 0], &[length, 1u32.wrapping_sub(length)]);
            write(2, &[4, 4], &[0, 0], &[2u32.wrapping_sub(length), length]);
        }
    }
    assert_eq!(write(0, &[4; 4], &[0; 4], &[1 << 30; 4]), (1, 0));
    assert_eq!(write(1, &[4; 2], &[0; 2], &[u32::MAX, 2]), (1, 0));
    assert_eq!(write(2, &[4; 2], &[0; 2], &[1, 1]), (0, 0));
}

#[test]
fn versions_and_letters_of_the_writer() {
    for number in numbers(&[1, 2]) {
        let told = ask(written(&[(4, 0, 1), (1, 1, 2)], number, DAY, 60));
        assert_eq!(told.head() == (0, 0), number == 1 || number == 2);
    }
    let lettered = |letters: Vec<u8>, version| {
        let (items, kinds, flags, lengths) = (vec![9; 3], vec![4, 1], vec![0, 1], vec![1, 2]);
        ask(Question::Write { items, kinds, flags, lengths, letters, version, day: DAY, room: 60 }).head()
    };
    for octet in 0..=255 {
        for at in 0..4 {
            let mut letters = vec![0; 4];
            letters[at] = octet;
            assert_eq!(lettered(letters.clone(), 2), (0, 0));
            assert_eq!(lettered(letters, 1), ((octet != 0) as u64, 0));
        }
    }
    for length in (0..20).chain([255, 256, 257, 260, 65_540]) {
        assert_eq!(lettered(vec![0; length], 1), ((length != 4) as u64, 0));
        assert_eq!(lettered(vec![0; length], 2), ((length != 4) as u64, 0));
    }
}

/// Each octet of trailer and index with each value, in both versions.
#[test]
fn every_octet_of_an_index() {
    let mut made = Image::new(DAY as u32);
    made.add_of(1, 1, *b"UT", vec![7; 3]);
    made.add_of(4, 0, *b"XO", vec![8; 2]);
    for version in [1, 2] {
        let good = made.of_version(version).encode();
        for at in 5..good.len() {
            for octet in 0..=255 {
                let mut image = good.clone();
                image[at] = octet;
                let room = image.len() + 8;
                ask(Question::Image(image.clone()));
                ask(Question::Entry(image.clone(), 1));
                ask(Question::MoveTo2(image.clone(), room));
                ask(Question::MoveTo1(image.clone(), room));
                ask(Question::Room { image: image.clone(), table: vec![0; 4], moment: MOMENT, room, table_room: 4 });
                ask(Question::Anchors(image.clone(), 85, 84));
                ask(Question::AnchorsByIndex(image.clone(), 85, 84));
                ask(Question::Letters(image));
            }
        }
    }
}

#[test]
fn letters_of_a_country() {
    for image in images() {
        for number in numbers(&[85, 84]) {
            for (first, second) in [(number, 84), (85, number), (number, number)] {
                ask(Question::Anchors(image.clone(), first, second));
                ask(Question::AnchorsByIndex(image.clone(), first, second));
            }
        }
        let Answer::Anchors(told) = ask(Question::Anchors(image, 85, 84)) else { panic!("another answer") };
        assert_eq!((told.number, told.count, told.places[0]), (0, 1, 0));
    }
}

#[test]
fn rooms_of_moves() {
    let [one, two] = images();
    for room in (0..40).chain(one.len() - 3..two.len() + 3) {
        let told = ask(Question::MoveTo2(one.clone(), room));
        assert_eq!(told.head(), if room < two.len() { (9, 0) } else { (0, 0) });
        let told = ask(Question::MoveTo1(two.clone(), room));
        assert_eq!(told.head(), if room < one.len() { (9, 0) } else { (0, 0) });
        assert_eq!(ask(Question::MoveTo2(two.clone(), room)).head(), (5, 2));
        assert_eq!(ask(Question::MoveTo1(one.clone(), room)).head(), (5, 2));
    }
    assert_eq!(ask(Question::Letters(one)).head(), (5, 2));
    let Answer::Letters(told) = ask(Question::Letters(two)) else { panic!("another answer") };
    // The certificates have no letters in this image, though they pass.
    assert_eq!(told.letters_true, 0);
}

#[test]
fn rooms_of_images_in_which_room_is_made() {
    let table = vec![1, 0, 1, 0, 1, 0, 0, 1, 1];
    for image in images() {
        let full = (image.len(), 9);
        // The CRL ends first, then the certificates.
        for (moment, length, cells) in [(MOMENT, full.0, full.1), (20250101000000, 0, 4), (20310101000000, 12, 0)] {
            let room = |room, table_room| {
                ask(Question::Room { image: image.clone(), table: table.clone(), moment, room, table_room })
            };
            let Answer::Room(told) = room(full.0, full.1) else { panic!("another answer") };
            assert_eq!((told.number, told.table_length), (0, cells as u64));
            assert!(length == 0 || told.length == length as u64);
            let length = told.length as usize;
            for (at, table_at) in [(length, cells), (length + 1, cells + 1), (length + 7, cells), (length, cells + 7)] {
                assert_eq!(room(at, table_at).head(), (0, 0));
            }
            for at in (0..13).chain(length - 3..length) {
                assert_eq!(room(at.min(length - 1), cells).head(), (9, 0));
            }
            for table_at in 0..cells {
                assert_eq!(room(length, table_at).head(), (9, 0));
                assert_eq!(room(0, table_at).head(), (9, 0));
            }
        }
    }
}

#[test]
fn moments_at_which_room_is_made() {
    let room = |moment| {
        let (image, table) = (image(), vec![0; 9]);
        let room = image.len();
        ask(Question::Room { image, table, moment, room, table_room: 9 }).head()
    };
    for number in numbers(&[MOMENT, 19500101000000, 20991231235959]) {
        room(number);
    }
    for number in [0, u64::MAX, i64::MAX as u64, 1 << 63] {
        assert_eq!(room(number), (1, 0));
    }
}

#[test]
fn empty_slices() {
    let none = Vec::new;
    let ends = [0, 1, 2, 3, 4, DAY, MOMENT, 1 << 63, u64::MAX];
    assert_eq!(ask(Question::Walk(none())).head(), (2, 0));
    assert_eq!(ask(Question::Integer(none())).head(), (2, 0));
    assert_eq!(ask(Question::Crl(none())).head(), (2, 0));
    assert_eq!(ask(Question::Image(none())).head(), (5, 1));
    assert_eq!(ask(Question::Letters(none())).head(), (5, 1));
    assert_eq!(ask(Question::Anchors(none(), 85, 84)).head(), (5, 1));
    assert_eq!(ask(Question::AnchorsByIndex(none(), 85, 84)).head(), (5, 1));
    assert_eq!(ask(Question::AnchorsByIndex(none(), 0, 84)).head(), (1, 0));
    for room in [0, 1, 11, 12, 13] {
        assert_eq!(ask(Question::MoveTo2(none(), room)).head(), (5, 1));
        assert_eq!(ask(Question::MoveTo1(none(), room)).head(), (5, 1));
        let made = |image| Question::Room { image, table: none(), moment: MOMENT, room, table_room: 0 };
        assert_eq!(ask(made(none())).head(), (5, 1));
        let wanted = if room < 12 { (9, 0) } else { (0, 0) };
        assert_eq!(ask(made(Image::new(DAY as u32).encode())).head(), wanted);
    }
    let no_entries = Image::new(DAY as u32).encode();
    for number in ends {
        ask(Question::Certificate(none(), number));
        ask(Question::Age(none(), number));
        ask(Question::ImageForDay(none(), number));
        ask(Question::Entry(none(), number));
        ask(Question::Entry(no_entries.clone(), number));
        for target in ends {
            for image in [none(), no_entries.clone(), image()] {
                for table in [none(), vec![0], vec![1; 9]] {
                    ask(Question::Chain { image: image.clone(), table: table.clone(), moment: number, target });
                    let (image, places) = (image.clone(), none());
                    ask(Question::Proposal { image, table, moment: number, target, places });
                }
            }
        }
    }
    // Each slice of the writer empty or not.
    for empty in 0..32 {
        let size = |bit: usize| (empty >> bit & 1) ^ 1;
        for (room, version) in [0, 1, 11, 12, 13, 20, 21, 22, 25].into_iter().flat_map(|room| [(room, 1), (room, 2)]) {
            for day in ends {
                let (items, kinds, flags) = (vec![1; size(0)], vec![2; size(1)], vec![0; size(2)]);
                let (lengths, letters) = (vec![1; size(3)], vec![0; 2 * size(4)]);
                ask(Question::Write { items, kinds, flags, lengths, letters, version, day, room });
            }
        }
    }
}

/// An OCTET STRING that is this long with its header.
fn octets(length: usize) -> Vec<u8> {
    let contents = length - 4;
    let mut item = vec![4, 0x82, (contents >> 8) as u8, contents as u8];
    item.resize(length, 0);
    item
}

/// A SEQUENCE of this many NULLs.
fn nulls(number: usize) -> Vec<u8> {
    let contents = 2 * number;
    let mut item = vec![0x30, 0x82, (contents >> 8) as u8, contents as u8];
    item.resize(4 + contents, 0);
    item[4..].iter_mut().step_by(2).for_each(|octet| *octet = 5);
    item
}

/// SEQUENCEs in each other.
fn nested(depth: usize) -> Vec<u8> {
    (0..depth).rev().flat_map(|inside| [0x30, 2 * inside as u8]).collect()
}

/// An image of 16 items that has this many bytes in a version.
fn large(bytes: usize, version: u16) -> Image {
    let more = if version == 1 { 4 * 16 } else { 0 };
    Image::long(&mut Random::new(3), bytes + more).of_version(version)
}

#[test]
fn lengths_around_the_limits() {
    for (item, head) in [
        (octets(16_383), (0, 0)),
        (octets(16_384), (0, 0)),
        (octets(16_385), (3, 0)),
        (vec![0; 65_536], (3, 0)),
        (nulls(4_095), (0, 0)),
        (nulls(4_096), (3, 4 + 2 * 4_095)),
        (nested(16), (0, 0)),
        (nested(17), (3, 32)),
    ] {
        assert_eq!(ask(Question::Walk(item.clone())).head(), head);
        ask(Question::Integer(item.clone()));
        ask(Question::Crl(item.clone()));
        ask(Question::Age(item.clone(), DAY));
        ask(Question::Age(item.clone(), 0));
        for role in 0..=4 {
            ask(Question::Certificate(item.clone(), role));
        }
    }
}

/// The question that writes an image.
fn to_write(made: &Image, room: usize) -> Question {
    let Columns { items, kinds, flags, lengths, letters, version, day } = Columns::of(made);
    Question::Write { items, kinds, flags, lengths, letters, version, day, room }
}

#[test]
fn images_around_the_limits() {
    for (bytes, read, write) in [(262_143, 0, 0), (262_144, 0, 0), (262_145, 5, 3)] {
        for made in [large(bytes, 1), large(bytes, 2)] {
            let image = made.encode();
            assert_eq!(image.len(), bytes);
            assert_eq!(ask(Question::Image(image.clone())).head().0, read);
            ask(Question::Letters(image.clone()));
            ask(Question::Entry(image.clone(), 15));
            ask(Question::Chain { image, table: vec![0; 256], moment: MOMENT, target: 0 });
            let short = if write == 0 { 9 } else { write };
            for (room, number) in [(bytes - 1, short), (bytes, write), (bytes + 1, write)] {
                assert_eq!(ask(to_write(&made, room)).head().0, number);
            }
        }
    }
}

#[test]
fn moves_around_the_limits() {
    for (bytes, number) in [(262_143, 0), (262_144, 0), (262_145, 3), (262_208, 3)] {
        let made = large(bytes, 2);
        let (one, two) = (made.of_version(1).encode(), made.encode());
        assert_eq!((one.len(), two.len()), (bytes - 64, bytes));
        let short = if number == 0 { 9 } else { number };
        for (room, number) in [(bytes - 1, short), (bytes, number), (bytes + 1, number)] {
            assert_eq!(ask(Question::MoveTo2(one.clone(), room)).head(), (number, 0));
        }
        let wanted = if number == 0 { (0, 0) } else { (5, 1) };
        assert_eq!(ask(Question::MoveTo1(two, bytes)).head(), wanted);
    }
}

#[test]
fn numbers_of_entries() {
    for (entries, read, write) in [(95, 0, 0), (96, 0, 0), (97, 5, 1), (255, 5, 1), (256, 5, 1), (65_535, 5, 1)] {
        for (version, width) in [(1, 8), (2, 12)] {
            let mut made = Image { version, ..Image::new(DAY as u32) };
            (0..entries).for_each(|_| made.add(2, 0, vec![5]));
            let image = made.encode();
            assert_eq!(ask(Question::Image(image.clone())).head().0, read);
            assert_eq!(ask(to_write(&made, (width + 1) * entries + 12)).head().0, write);
            let room = 13 * entries + 12;
            ask(Question::MoveTo2(image.clone(), room));
            ask(Question::MoveTo1(image.clone(), room));
            ask(Question::Letters(image));
        }
    }
}
