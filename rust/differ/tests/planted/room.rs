//! Mistakes where room is made: what stays, how the table is cut, and what is written on a refusal.

use differ::{Answer, Lent};
use make::questions::Question;

use crate::{found, plain};

/// Whether an item of a kind stays at a moment.
type Stays = fn(&[u8], u64, u64) -> bool;
/// Of a table of n rows what belongs to these places.
type Cut = fn(usize, &[u8], &[usize]) -> Vec<u8>;

/// Room made by other rules.
fn by(question: &mut Question, output: &mut Lent, stays: Stays, cut: Cut) -> Answer {
    let Question::Room { image, table, moment, .. } = question else { return plain(question, output) };
    let (image, table, moment) = (image.clone(), table.clone(), *moment);
    let told = plain(question, &mut output.clone());
    if told.head() != (0, 0) {
        return told;
    }
    let head = plain::image(&image);
    let kept = |place: &u64| {
        let entry = plain::entry(&image, *place);
        stays(item(&image, &entry), entry.kind, moment)
    };
    let places: Vec<usize> = (0..head.entries).filter(kept).map(|place| place as usize).collect();
    let (out, verdicts) = (packed(&image, &places), cut(head.entries as usize, &table, &places));
    let (length, table_length) = (out.len() as u64, verdicts.len() as u64);
    let fits = out.len() <= output.octets.len() && verdicts.len() <= output.table.len();
    if !fits {
        return Answer::Room(plain::Made { number: 9, ..plain::Made::default() });
    }
    output.octets[..out.len()].copy_from_slice(&out);
    output.table[..verdicts.len()].copy_from_slice(&verdicts);
    Answer::Room(plain::Made { number: 0, detail: 0, length, table_length, entries: places.len() as u64 })
}

fn item<'a>(image: &'a [u8], entry: &plain::Entry) -> &'a [u8] {
    &image[entry.offset as usize..][..entry.length as usize]
}

/// The image of these places.
fn packed(image: &[u8], places: &[usize]) -> Vec<u8> {
    let head = plain::image(image);
    let mut made = make::image::Image { version: head.version as u16, ..make::image::Image::new(head.day as u32) };
    for &place in places {
        let entry = plain::entry(image, place as u64);
        made.add_of(entry.kind as u8, entry.flags as u8, entry.country, item(image, &entry).to_vec());
    }
    made.encode()
}

/// The last moment of an item that passes its profile.
fn last(item: &[u8], kind: u64) -> Option<u64> {
    match kind {
        4 => Some(plain::crl(item)).filter(|told| told.number == 0).map(|told| told.next_update),
        role => Some(plain::certificate(item, role)).filter(|told| told.number == 0).map(|told| told.end),
    }
}

fn stays(item: &[u8], kind: u64, moment: u64) -> bool {
    last(item, kind).is_some_and(|last| moment <= last)
}

fn cut(n: usize, table: &[u8], places: &[usize]) -> Vec<u8> {
    places.iter().flat_map(|row| places.iter().map(move |column| table[row * n + column])).collect()
}

fn room(question: &Question) -> bool {
    matches!(question, Question::Room { .. })
}

#[test]
fn equal_to_the_moment_goes() {
    found(
        |question, output| by(question, output, |item, kind, at| last(item, kind).is_some_and(|end| at < end), cut),
        room,
    );
}

#[test]
fn what_fails_its_profile_stays() {
    found(
        |question, output| by(question, output, |item, kind, at| last(item, kind).map_or(true, |end| at <= end), cut),
        room,
    );
}

#[test]
fn what_has_not_begun_goes() {
    found(
        |question, output| {
            let begun: Stays = |item, kind, at| match kind {
                4 => stays(item, kind, at) && plain::crl(item).this_update <= at,
                role => stays(item, kind, at) && plain::certificate(item, role).start <= at,
            };
            by(question, output, begun, cut)
        },
        room,
    );
}

#[test]
fn lists_that_are_past_stay() {
    found(
        |question, output| {
            by(question, output, |item, kind, at| stays(item, kind, if kind == 4 { 0 } else { at }), cut)
        },
        room,
    );
}

#[test]
fn the_table_is_cut_by_rows_alone() {
    found(
        |question, output| {
            by(question, output, stays, |n, table, places| {
                let m = places.len();
                places.iter().flat_map(|row| table[row * n..][..m].to_vec()).collect()
            })
        },
        room,
    );
}

#[test]
fn rows_and_columns_are_turned_round() {
    found(
        |question, output| {
            by(question, output, stays, |n, table, places| {
                places.iter().flat_map(|row| places.iter().map(move |column| table[column * n + row])).collect()
            })
        },
        room,
    );
}

#[test]
fn the_table_of_the_first_places() {
    found(
        |question, output| {
            by(question, output, stays, |n, table, places| {
                let first: Vec<usize> = (0..places.len()).collect();
                cut(n, table, &first)
            })
        },
        room,
    );
}

#[test]
fn a_short_table_is_noticed_after_the_image() {
    found(
        |question, output| {
            let told = plain(question, output);
            if let (Question::Room { image, table, moment, .. }, (9, 0)) = (&question, told.head()) {
                let (mut image_out, mut table_out) = (vec![0; image.len()], vec![0; table.len()]);
                let enough = plain::make_room(image, table, *moment, &mut image_out, &mut table_out);
                if let Some(out) = output.octets.get_mut(..enough.length as usize) {
                    out.copy_from_slice(&image_out[..enough.length as usize]);
                }
            }
            told
        },
        room,
    );
}

#[test]
fn an_exact_output_is_too_short() {
    found(
        |question, output| match plain(question, output) {
            Answer::Room(told) if told.number == 0 && told.length == output.octets.len() as u64 => {
                Answer::Room(plain::Made { number: 9, ..plain::Made::default() })
            }
            told => told,
        },
        room,
    );
}

#[test]
fn what_is_beyond_is_cleared() {
    found(
        |question, output| {
            let told = plain(question, output);
            if let Answer::Room(plain::Made { number: 0, table_length, .. }) = told {
                output.table[table_length as usize..].fill(0);
            }
            told
        },
        room,
    );
}

#[test]
fn letters_are_written_anew() {
    found(
        |question, output| {
            let told = plain(question, output);
            if let Answer::Room(plain::Made { number: 0, length, .. }) = told {
                let mut one = vec![0; length as usize];
                let back = plain::move_to_1(&output.octets[..length as usize], &mut one);
                if back.number == 0 {
                    let mut two = vec![0; length as usize];
                    plain::move_to_2(&one[..back.length as usize], &mut two);
                    output.octets[..length as usize].copy_from_slice(&two);
                }
            }
            told
        },
        room,
    );
}

#[test]
fn a_short_output_is_told_before_the_table() {
    found(
        |question, output| match (plain(question, output), &question) {
            (told, Question::Room { image, room, .. }) if told.head() == (1, 0) && *room < image.len() => {
                Answer::Room(plain::Made { number: 9, ..plain::Made::default() })
            }
            (told, _) => told,
        },
        room,
    );
}
