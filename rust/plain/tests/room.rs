//! Making room in an image.

use make::certificate::{Certificate, Parameters};
use make::crl::{self, Crl};
use make::image::{Image, BREAKS};
use make::questions::{Question, Source};
use make::random::Random;
use make::time::{second_after, second_before};
use plain::{all_signers, chain, image, letters, make_room, Made};

const MOMENT: u64 = 20240301120030;
const LATER: u64 = 20301231235959;

/// A certificate of a role that ends so.
fn certificate(role: u64, end: u64) -> Vec<u8> {
    Certificate::new(&Parameters { end, ..Parameters::typical(role) }).encode()
}

fn list(next_update: u64) -> Vec<u8> {
    Crl::new(&crl::Parameters { next_update, ..crl::Parameters::typical(2) }).encode()
}

/// Items of these kinds, with letters by their place.
fn packed(version: u16, items: &[(u8, Vec<u8>)]) -> Image {
    let mut made = Image { version, ..Image::new(20240301) };
    for (place, (kind, item)) in items.iter().enumerate() {
        let letters = if version == 2 { [place as u8, 255 - place as u8] } else { [0, 0] };
        made.add_of(*kind, (*kind == 1 && place % 2 == 0) as u8, letters, item.clone());
    }
    made
}

/// The image of these places alone.
fn only(made: &Image, places: &[usize]) -> Vec<u8> {
    let mut new = Image { version: made.version, ..Image::new(made.day) };
    for &place in places {
        new.add_of(made.kinds[place], made.flags[place], made.letters[place], made.items[place].clone());
    }
    new.encode()
}

/// A table that has no two rows or columns alike.
fn numbered(n: usize) -> Vec<u8> {
    (0..n * n).map(|at| ((at / n * 7 + at % n * 3 + at / n * (at % n)) % 5 < 2) as u8).collect()
}

fn cut(n: usize, table: &[u8], places: &[usize]) -> Vec<u8> {
    places.iter().flat_map(|row| places.iter().map(move |column| table[row * n + column])).collect()
}

/// These places stay, and nothing else is written; one byte less in either output is 9, and both outputs stay.
fn stay(made: &Image, moment: u64, places: &[usize]) {
    let (old, n) = (made.encode(), made.items.len());
    let table = numbered(n);
    let (new, verdicts) = (only(made, places), cut(n, &table, places));
    let told = Made {
        number: 0,
        detail: 0,
        length: new.len() as u64,
        table_length: verdicts.len() as u64,
        entries: places.len() as u64,
    };
    for more in [0, 1, 40] {
        let (mut out, mut table_out) = (vec![0xA5; new.len() + more], vec![0x5A; verdicts.len() + more]);
        assert_eq!(make_room(&old, &table, moment, &mut out, &mut table_out), told);
        assert_eq!((&out[..new.len()], &table_out[..verdicts.len()]), (&new[..], &verdicts[..]));
        assert!(out[new.len()..].iter().all(|octet| *octet == 0xA5));
        assert!(table_out[verdicts.len()..].iter().all(|octet| *octet == 0x5A));
    }
    refused(&old, &table, moment, [new.len() - 1, verdicts.len()], 9, 0);
    if !verdicts.is_empty() {
        refused(&old, &table, moment, [new.len(), verdicts.len() - 1], 9, 0);
        refused(&old, &table, moment, [new.len() + 9, 0], 9, 0);
    }
    // Twice is as good as once.
    let (mut out, mut table_out) = (vec![0; new.len()], vec![0; verdicts.len()]);
    assert_eq!(make_room(&new, &verdicts, moment, &mut out, &mut table_out), told);
    assert_eq!((out, table_out), (new, verdicts));
}

/// It is refused, and both outputs stay.
fn refused(image: &[u8], table: &[u8], moment: u64, rooms: [usize; 2], number: u64, detail: u64) {
    let (mut out, mut table_out) = (vec![0xA5; rooms[0]], vec![0x5A; rooms[1]]);
    let told = make_room(image, table, moment, &mut out, &mut table_out);
    assert_eq!(told, Made { number, detail, ..Made::default() });
    assert!(out.iter().all(|octet| *octet == 0xA5) && table_out.iter().all(|octet| *octet == 0x5A));
}

/// One of each kind that goes on, and those of the kinds that end at a moment.
fn kinds(end: u64) -> Vec<(u8, Vec<u8>)> {
    let mut items: Vec<_> = (1..=3).map(|role| (role, certificate(role as u64, end))).collect();
    items.push((4, list(end)));
    items.extend((1..=3).map(|role| (role, certificate(role as u64, LATER))));
    items.push((4, list(LATER)));
    items
}

#[test]
fn ends_around_the_moment() {
    for version in [1, 2] {
        for (end, places) in [(second_before(MOMENT), 4..8), (MOMENT, 0..8), (second_after(MOMENT), 0..8)] {
            let made = packed(version, &kinds(end));
            stay(&made, MOMENT, &places.collect::<Vec<_>>());
            stay(&made, 20310101000000, &[]);
        }
    }
}

#[test]
fn some_stay() {
    for version in [1, 2] {
        stay(&packed(version, &[]), MOMENT, &[]);
        let (here, gone) = (|role| certificate(role, LATER), |role| certificate(role, 20210101000000));
        let middle = packed(version, &[(1, gone(1)), (2, here(2)), (3, here(3)), (4, list(20240201000000))]);
        stay(&middle, MOMENT, &[1, 2]);
        let ends = packed(version, &[(1, here(1)), (2, gone(2)), (3, gone(3)), (4, list(LATER))]);
        stay(&ends, MOMENT, &[0, 3]);
    }
}

#[test]
fn what_fails_goes() {
    let here = |role| certificate(role, LATER);
    let broken = vec![0x30, 0];
    for version in [1, 2] {
        let items = [
            (1, here(3)),
            (1, here(1)),
            (2, broken.clone()),
            (3, here(1)),
            (3, here(3)),
            (4, here(3)),
            (3, list(LATER)),
        ];
        stay(&packed(version, &items), MOMENT, &[1, 4]);
        stay(&packed(version, &[(2, broken.clone())]), MOMENT, &[]);
    }
}

/// A start after the moment, and an anchor that is not enabled, are no reason to go.
#[test]
fn starts_and_flags_play_no_part() {
    for version in [1, 2] {
        let mut made = packed(version, &kinds(LATER));
        made.flags[0] = 0;
        made.flags[4] = 0;
        stay(&made, 19500101000000, &(0..8).collect::<Vec<_>>());
    }
}

#[test]
fn letters_are_kept_as_they_stand() {
    let mut made = packed(2, &kinds(LATER));
    made.items[3] = vec![1, 2, 3];
    stay(&made, MOMENT, &[0, 1, 2, 4, 5, 6, 7]);
    let mut out = vec![0; made.encode().len()];
    let told = make_room(&made.encode(), &[0; 64], MOMENT, &mut out, &mut [0; 64]);
    assert_eq!(letters(&out[..told.length as usize]).letters_true, 0);
}

#[test]
fn order_of_refusals() {
    let made = packed(1, &kinds(LATER)).encode();
    let good = numbered(8);
    for way in BREAKS {
        let mut broken = made.clone();
        (way.apply)(&mut broken, &mut Random::new(1));
        refused(&broken, &[2], 0, [0, 0], 5, way.rule);
    }
    let mut two = good.clone();
    two[63] = 2;
    for table in [&good[..63], &two, &[]] {
        refused(&made, table, MOMENT, [0, 0], 1, 0);
        refused(&made, table, MOMENT, [made.len(), 64], 1, 0);
    }
    for moment in [0, 20240230000000, 20240301240000, 19491231235959, 21000101000000, u64::MAX] {
        refused(&made, &good, moment, [0, 0], 1, 0);
        refused(&made, &good, moment, [made.len(), 64], 1, 0);
    }
    refused(&made, &good, MOMENT, [0, 0], 9, 0);
}

/// The place of each item in the new image, where it stays.
fn renumbered(old: &[u8], moment: u64) -> Vec<Option<u8>> {
    let mut next = 0;
    (0..image(old).entries)
        .map(|place| {
            let line = plain::entry(old, place);
            let item = &old[line.offset as usize..][..line.length as usize];
            let last = match line.kind {
                4 => Some(plain::crl(item)).filter(|told| told.number == 0).map(|told| told.next_update),
                role => Some(plain::certificate(item, role)).filter(|told| told.number == 0).map(|told| told.end),
            };
            last.filter(|last| moment <= *last).map(|_| {
                next += 1;
                next - 1
            })
        })
        .collect()
}

/// From the moment on every signer that stays has its chain under new numbers, or 7 in both; one that went has none.
#[test]
fn chains_after_it() {
    let (mut source, mut compared, mut found) = (Source::new(77), 0, 0);
    while compared < 150 {
        let Question::Room { image: old, table, moment, .. } = source.next() else { continue };
        let (mut out, mut table_out) = (vec![0; old.len()], vec![0; table.len()]);
        let told = make_room(&old, &table, moment, &mut out, &mut table_out);
        if told.number != 0 {
            continue;
        }
        compared += 1;
        let (new, cut) = (&out[..told.length as usize], &table_out[..told.table_length as usize]);
        let numbers = renumbered(&old, moment);
        assert_eq!(numbers.iter().flatten().count() as u64, told.entries);
        for at in [moment, second_after(moment), 20240301120000, 20241231235959, 20300101000000, 20991231235959] {
            if at < moment {
                continue;
            }
            for (place, number) in numbers.iter().enumerate() {
                let before = chain(&old, &table, at, place as u64);
                let Some(number) = number else {
                    assert_ne!(before.number, 0);
                    continue;
                };
                let after = chain(new, cut, at, *number as u64);
                let places: Vec<u8> = (0..before.length as usize)
                    .map(|slot| numbers[before.places[slot] as usize].expect("a place of a chain went"))
                    .collect();
                assert_eq!((after.number, after.detail, after.length), (before.number, before.detail, before.length));
                assert_eq!(after.places[..places.len()], places);
                found += places.len();
            }
            let mut records = vec![0; 97 * 96];
            assert_eq!(all_signers(new, cut, at, &mut records).length, 97 * told.entries);
        }
    }
    assert!(found > 100, "{found}");
}
