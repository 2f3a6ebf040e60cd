//! The comparison finds mistakes: each of these readers is the plain reader with
//! one mistake, and is found out within the questions of one seed.

#![forbid(unsafe_code)]

mod countries;
mod room;
mod signers;
mod versions;

use differ::{compare, run, Answer, Lent, Library, Limits, Plain, Reader};
use make::image::Image;
use make::questions::Question;
use make::time::second_after;

const SEED: u64 = 1;
const COUNT: u64 = 60_000;

/// The plain reader with a mistake.
struct Planted(fn(&mut Question, &mut Lent) -> Answer);

impl Reader for Planted {
    fn answer(&self, question: &mut Question, output: &mut Lent) -> Answer {
        (self.0)(question, output)
    }
}

fn plain(question: &mut Question, output: &mut Lent) -> Answer {
    Plain.answer(question, output)
}

/// The library has to differ from the reader, in a question that `fits`.
fn found(mistake: fn(&mut Question, &mut Lent) -> Answer, fits: fn(&Question) -> bool) {
    let limits = Limits { count: Some(COUNT), time: None };
    let difference = run(&Library, &Planted(mistake), SEED, limits, |_, _| {}).expect_err("the mistake is not found");
    assert!(fits(&difference.question), "{difference}");
    assert_eq!(difference.seed, SEED);
    println!("found at question {}", difference.index);
    // The same question finds it again, and no mistake in the reader without it.
    assert!(compare(&Library, &Planted(mistake), &difference.question).is_err());
    assert!(compare(&Library, &Plain, &difference.question).is_ok());
}

#[test]
fn serial_of_21_octets_passes() {
    found(
        |question, output| {
            let told = plain(question, output);
            match (&question, told) {
                (Question::Certificate(item, role), Answer::Certificate(refused)) if told.head() == (4, 3) => {
                    // The same certificate with one octet of its serial less.
                    match without_an_octet(item) {
                        Some(shorter) => plain(&mut Question::Certificate(shorter, *role), output),
                        None => Answer::Certificate(refused),
                    }
                }
                _ => told,
            }
        },
        |question| matches!(question, Question::Certificate(..)),
    );
}

/// Takes the last octet of a serial of 21 octets away, where both outer lengths have two octets.
fn without_an_octet(item: &[u8]) -> Option<Vec<u8>> {
    let mut item = item.to_vec();
    let serial = item.get(13..15)?;
    if item[1] != 0x82 || item[5] != 0x82 || serial != [2, 21] {
        return None;
    }
    item.remove(35);
    item[14] = 20;
    for at in [2, 6] {
        let length = u16::from_be_bytes([item[at], item[at + 1]]) - 1;
        item[at..at + 2].copy_from_slice(&length.to_be_bytes());
    }
    Some(item)
}

#[test]
fn the_last_of_equally_short_chains() {
    found(
        |question, output| match question {
            Question::Chain { image, table, moment, target } => backwards(image, table, *moment, *target)
                .map_or_else(|| plain::chain(image, table, *moment, *target).into(), Answer::Chain),
            _ => plain(question, output),
        },
        |question| matches!(question, Question::Chain { .. }),
    );
}

/// The chain in the image with its entries in the other order.
fn backwards(image: &[u8], table: &[u8], moment: u64, target: u64) -> Option<plain::Chain> {
    if plain::chain(image, table, moment, target).number != 0 {
        return None;
    }
    let head = plain::image(image);
    let n = head.entries as usize;
    let mut made = Image::new(head.day as u32);
    for place in (0..head.entries).rev() {
        let entry = plain::entry(image, place);
        let item = &image[entry.offset as usize..(entry.offset + entry.length) as usize];
        made.add(entry.kind as u8, entry.flags as u8, item.to_vec());
    }
    let turned = made.encode();
    let table: Vec<u8> = table.iter().rev().copied().collect();
    let mut told = plain::chain(&turned, &table, moment, (n - 1) as u64 - target);
    for place in &mut told.places[..told.length as usize] {
        *place = (n - 1) as u8 - *place;
    }
    Some(told)
}

/// The library with a second search that has a mistake.
struct Twofold(Planted);

impl Reader for Twofold {
    fn answer(&self, question: &mut Question, output: &mut Lent) -> Answer {
        Library.answer(question, output)
    }

    fn other(&self, question: &Question) -> Option<&dyn Reader> {
        Library.other(question).map(|_| &self.0 as &dyn Reader)
    }
}

#[test]
fn the_second_search_is_compared_too() {
    let mistake = Planted(|question, output| match question {
        Question::Chain { image, table, moment, target } => backwards(image, table, *moment, *target)
            .map_or_else(|| plain::chain(image, table, *moment, *target).into(), Answer::Chain),
        _ => plain(question, output),
    });
    let limits = Limits { count: Some(COUNT), time: None };
    let twofold = Twofold(mistake);
    let difference = run(&twofold, &Plain, SEED, limits, |_, _| {}).expect_err("the mistake is not found");
    assert!(matches!(difference.question, Question::Chain { .. }), "{difference}");
    assert!(compare(&twofold, &Plain, &difference.question).is_err());
    assert!(compare(&Library, &Plain, &difference.question).is_ok());
}

#[test]
fn the_last_moment_is_not_counted() {
    found(
        |question, output| match question {
            Question::Chain { image, table, moment, target } => {
                let told = plain::chain(image, table, *moment, *target);
                match told.number {
                    0 => plain::chain(image, table, second_after(*moment), *target).into(),
                    _ => told.into(),
                }
            }
            _ => plain(question, output),
        },
        |question| matches!(question, Question::Chain { .. }),
    );
}

#[test]
fn a_link_may_not_stand_twice() {
    found(
        |question, output| match (plain(question, output), question) {
            (Answer::Told(told), Question::Proposal { places, .. }) if told.number == 0 => {
                let twice = (1..places.len()).any(|at| places[..at].contains(&places[at]));
                Answer::Told(plain::Told { number: if twice { 7 } else { 0 }, ..told })
            }
            (told, _) => told,
        },
        |question| matches!(question, Question::Proposal { .. }),
    );
}

#[test]
fn a_proposal_may_end_anywhere() {
    found(
        |question, output| match question {
            Question::Proposal { image, table, moment, target, places } => {
                let mut ended = places.clone();
                if let Some(last) = ended.last_mut().filter(|last| u64::from(**last) < plain::image(image).entries) {
                    *last = *target as u8;
                }
                plain::proposal(image, table, *moment, *target, &ended).into()
            }
            _ => plain(question, output),
        },
        |question| matches!(question, Question::Proposal { .. }),
    );
}

#[test]
fn age_before_this_update_is_off_by_one() {
    found(
        |question, output| match (plain(question, output), question) {
            (Answer::Days(told), Question::Age(..)) if told.days < 0 => {
                Answer::Days(plain::Days { days: told.days + 1, ..told })
            }
            (told, _) => told,
        },
        |question| matches!(question, Question::Age(..)),
    );
}

#[test]
fn days_without_the_leap_day_of_2000() {
    found(
        |question, output| match (plain(question, output), question) {
            (Answer::Days(told), Question::Days(first, second))
                if told.number == 0 && *first < 20000229 && *second > 20000229 =>
            {
                Answer::Days(plain::Days { days: told.days - 1, ..told })
            }
            (told, _) => told,
        },
        |question| matches!(question, Question::Days(..)),
    );
}

#[test]
fn the_order_of_a_set_is_not_asked() {
    found(
        |question, output| match question {
            Question::Walk(item) => plain(&mut Question::Walk(sequences(item)), output),
            _ => plain(question, output),
        },
        |question| matches!(question, Question::Walk(..)),
    );
}

/// An item with a SEQUENCE for each SET, as far as its elements can be read.
fn sequences(item: &[u8]) -> Vec<u8> {
    let (mut item, mut at) = (item.to_vec(), 0);
    while at + 1 < item.len() {
        let (header, length) = match (item[at + 1], item.get(at + 2), item.get(at + 3)) {
            (0x81, Some(&length), _) => (3, usize::from(length)),
            (0x82, Some(&high), Some(&low)) => (4, usize::from(high) * 256 + usize::from(low)),
            (length, ..) => (2, usize::from(length)),
        };
        if item[at] == 0x31 {
            item[at] = 0x30;
        }
        at += if item[at] & 0x20 != 0 { header } else { header + length };
    }
    item
}

#[test]
fn octets_after_the_item_are_told_at_the_last() {
    found(
        |question, output| match (plain(question, output), question) {
            (Answer::Walk(told), Question::Walk(item))
                if told.number == 2 && plain::walk(&item[..told.detail as usize]).number == 0 =>
            {
                Answer::Walk(plain::Walk { detail: item.len() as u64 - 1, ..told })
            }
            (told, _) => told,
        },
        |question| matches!(question, Question::Walk(_)),
    );
}

#[test]
fn a_refusal_tells_a_count() {
    found(
        |question, output| match plain(question, output) {
            Answer::Walk(told) if told.number == 3 => Answer::Walk(plain::Walk { count: 1, ..told }),
            told => told,
        },
        |question| matches!(question, Question::Walk(_)),
    );
}

#[test]
fn eight_octets_are_too_wide() {
    found(
        |question, output| match (plain(question, output), question) {
            (Answer::Integer(told), Question::Integer(item)) if told.number == 0 && item.len() == 10 => {
                Answer::Integer(plain::Integer { number: 8, detail: 0, value: 0 })
            }
            (told, _) => told,
        },
        |question| matches!(question, Question::Integer(_)),
    );
}

#[test]
fn a_role_is_cut_to_an_octet() {
    found(
        |question, output| match question {
            Question::Certificate(item, role) => plain::certificate(item, *role & 0xFF).into(),
            _ => plain(question, output),
        },
        |question| matches!(question, Question::Certificate(..)),
    );
}

#[test]
fn an_empty_key_identifier_is_told_as_absent() {
    found(
        |question, output| match plain(question, output) {
            Answer::Certificate(mut told) => {
                if told.subject_key_id_len == 0 {
                    told.subject_key_id_at = 0;
                }
                if told.authority_key_id_len == 0 {
                    told.authority_key_id_at = 0;
                }
                Answer::Certificate(told)
            }
            told => told,
        },
        |question| matches!(question, Question::Certificate(..)),
    );
}

#[test]
fn the_image_is_judged_before_the_wanted_day() {
    found(
        |question, output| match question {
            Question::ImageForDay(image, wanted) => match plain::image(image) {
                refused if refused.number != 0 => refused.into(),
                _ => plain::image_for_day(image, *wanted).into(),
            },
            _ => plain(question, output),
        },
        |question| matches!(question, Question::ImageForDay(..)),
    );
}

#[test]
fn a_place_is_cut_to_an_octet() {
    found(
        |question, output| match question {
            Question::Entry(image, place) => plain::entry(image, *place & 0xFF).into(),
            _ => plain(question, output),
        },
        |question| matches!(question, Question::Entry(..)),
    );
}

#[test]
fn writing_touches_a_byte_beyond() {
    found(
        |question, output| {
            let told = plain(question, output);
            if let (Question::Write { .. }, Answer::Write(plain::Written { number: 0, length, .. })) = (question, told)
            {
                if let Some(beyond) = output.octets.get_mut(length as usize) {
                    *beyond ^= 1;
                }
            }
            told
        },
        |question| matches!(question, Question::Write { .. }),
    );
}

#[test]
fn a_refused_writer_writes_what_fits() {
    found(
        |question, output| {
            let told = plain(question, output);
            if let (Answer::Write(plain::Written { number: 9, .. }), Question::Write { items, .. }) = (told, question) {
                for (to, from) in output.octets.iter_mut().zip(items) {
                    *to = *from;
                }
            }
            told
        },
        |question| matches!(question, Question::Write { .. }),
    );
}

#[test]
fn reading_changes_a_lent_byte() {
    found(
        |question, output| {
            let told = plain(question, output);
            if let (Question::Crl(item), (0, 0)) = (question, told.head()) {
                item[0] ^= 1;
            }
            told
        },
        |question| matches!(question, Question::Crl(_)),
    );
}

#[test]
fn a_difference_is_told_in_full() {
    let cut = Planted(|question, output| match plain(question, output) {
        Answer::Integer(told) => Answer::Integer(plain::Integer { value: told.value & 0x7F, ..told }),
        told => told,
    });
    let question = Question::Integer(vec![2, 1, 0x85]);
    let text = compare(&Library, &cut, &question).expect_err("a difference").to_string();
    for part in ["seed 0, question 0: integer", "value: -123", "value: 5", "item 020185"] {
        assert!(text.contains(part), "{part} is missing in {text}");
    }
}

#[test]
fn an_image_of_another_day_is_burnt() {
    found(
        |question, output| match question {
            // Each load of another day than the last opening's is made one of its day.
            Question::Replay { log, .. } => {
                let mut changed = log.clone();
                let mut day = [0; 4];
                for record in changed.chunks_exact_mut(8) {
                    match record[0] {
                        1 => day.copy_from_slice(&record[4..]),
                        2 => record[4..].copy_from_slice(&day),
                        _ => {}
                    }
                }
                plain::replay(&changed, &mut output.list).into()
            }
            _ => plain(question, output),
        },
        |question| matches!(question, Question::Replay { .. }),
    );
}

#[test]
fn the_list_is_written_where_it_is_too_short() {
    found(
        |question, output| {
            let told = plain(question, output);
            if let (Question::Replay { .. }, (9, 0), Some(first)) = (question, told.head(), output.list.first_mut()) {
                *first = 0;
            }
            told
        },
        |question| matches!(question, Question::Replay { .. }),
    );
}

#[test]
fn the_rest_of_the_list_is_cleared() {
    found(
        |question, output| {
            let told = plain(question, output);
            if let Answer::Replay(replayed) = told {
                output.list.iter_mut().skip(replayed.faulty as usize).for_each(|number| *number = 0);
            }
            told
        },
        |question| matches!(question, Question::Replay { .. }),
    );
}
