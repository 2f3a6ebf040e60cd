//! Mistakes with the anchors of a country.

use differ::{run, Answer, ByIndex, Limits, Plain, Reader};
use make::questions::Question;

use crate::{found, plain, Planted, Twofold, COUNT, SEED};

/// The places of the anchors among the entries that pass a test.
fn those(image: &[u8], test: impl Fn(&plain::Entry, &[u8]) -> bool) -> Answer {
    let mut told = plain::Anchors { number: 0, detail: 0, count: 0, places: [255; 96] };
    for place in 0..plain::image(image).entries {
        let entry = plain::entry(image, place);
        let item = &image[entry.offset as usize..][..entry.length as usize];
        if entry.kind == 1 && test(&entry, item) {
            told.places[told.count as usize] = place as u8;
            told.count += 1;
        }
    }
    told.into()
}

/// The letters that an item reports in a role.
fn letters(item: &[u8], role: u64) -> [u64; 2] {
    plain::certificate(item, role).country.map(u64::from)
}

fn full(question: &Question) -> bool {
    matches!(question, Question::Anchors(..))
}

fn short(question: &Question) -> bool {
    matches!(question, Question::AnchorsByIndex(..))
}

#[test]
fn disabled_anchors_are_listed() {
    found(
        |question, output| match (plain(question, output), question) {
            (told, Question::Anchors(image, first, second)) if told.head().0 == 0 => {
                those(image, |_, item| letters(item, 1) == [*first, *second])
            }
            (told, _) => told,
        },
        full,
    );
}

#[test]
fn disabled_anchors_are_listed_by_the_index() {
    found(
        |question, output| match (plain(question, output), question) {
            (told, Question::AnchorsByIndex(image, first, second)) if told.head().0 == 0 => {
                those(image, |entry, _| entry.country.map(u64::from) == [*first, *second])
            }
            (told, _) => told,
        },
        short,
    );
}

#[test]
fn the_order_is_turned() {
    found(
        |question, output| match plain(question, output) {
            Answer::Anchors(mut told) => {
                told.places[..told.count as usize].reverse();
                told.into()
            }
            told => told,
        },
        |question| full(question) || short(question),
    );
}

#[test]
fn the_last_place_is_left_out() {
    found(
        |question, output| match (plain(question, output), question) {
            (Answer::Anchors(mut told), Question::Anchors(image, ..)) => {
                let last = told.count.checked_sub(1).map(|last| last as usize);
                if let Some(last) = last.filter(|&last| told.places[last] as u64 + 1 == plain::image(image).entries) {
                    told.places[last] = 255;
                    told.count -= 1;
                }
                told.into()
            }
            (told, _) => told,
        },
        full,
    );
}

#[test]
fn the_letters_of_the_next_entry_are_read() {
    found(
        |question, output| match (plain(question, output), question) {
            (told, Question::AnchorsByIndex(image, first, second)) if told.head().0 == 0 => {
                let mut shifted = image.clone();
                let n = plain::image(image).entries as usize;
                let at = |place: usize| image.len() - 12 - 12 * (n - place) + 8;
                for place in 1..n {
                    shifted[at(place - 1)..][..2].copy_from_slice(&image[at(place)..][..2]);
                }
                plain::anchors_by_index(&shifted, *first, *second).into()
            }
            (told, _) => told,
        },
        short,
    );
}

#[test]
fn a_failing_anchor_is_listed_by_its_index() {
    found(
        |question, output| match (plain(question, output), question) {
            (told, Question::Anchors(image, first, second)) if told.head().0 == 0 => {
                let asked = [*first, *second];
                those(image, |entry, item| {
                    entry.flags == 1 && (letters(item, 1) == asked || entry.country.map(u64::from) == asked)
                })
            }
            (told, _) => told,
        },
        full,
    );
}

#[test]
fn letters_are_cut_to_an_octet() {
    found(
        |question, output| match question {
            Question::Anchors(image, first, second) => plain::anchors(image, *first & 0xFF, *second & 0xFF).into(),
            _ => plain(question, output),
        },
        full,
    );
}

#[test]
fn small_letters_are_taken_for_capitals() {
    found(
        |question, output| match question {
            Question::AnchorsByIndex(image, first, second) => {
                let capital = |letter: u64| if (97..=122).contains(&letter) { letter - 32 } else { letter };
                plain::anchors_by_index(image, capital(*first), capital(*second)).into()
            }
            _ => plain(question, output),
        },
        short,
    );
}

#[test]
fn the_image_is_told_before_the_letters() {
    found(
        |question, output| match (plain(question, output), question) {
            (Answer::Anchors(told), Question::Anchors(image, ..)) if told.number == 1 => match plain::image(image) {
                plain::Image { number: 5, detail, .. } => plain::Anchors { number: 5, detail, ..told }.into(),
                _ => told.into(),
            },
            (told, _) => told,
        },
        full,
    );
}

#[test]
fn version_1_has_an_answer_by_the_index() {
    found(
        |question, output| match (plain(question, output), question) {
            (told, Question::AnchorsByIndex(image, first, second)) if told.head() == (5, 2) => {
                match plain::anchors(image, *first, *second) {
                    full if full.number == 0 => full.into(),
                    _ => told,
                }
            }
            (told, _) => told,
        },
        short,
    );
}

/// Where letters are true the full answer is held to that by the index.
#[test]
fn an_index_that_lists_another_place() {
    let mistake = Planted(|question, output| match ByIndex.answer(question, output) {
        Answer::Anchors(mut told) if told.count > 1 => {
            told.places[0] = told.places[1];
            told.into()
        }
        told => told,
    });
    let limits = Limits { count: Some(COUNT), time: None };
    let difference = run(&Twofold(mistake), &Plain, SEED, limits, |_, _| {}).expect_err("the mistake is not found");
    assert!(full(&difference.question), "{difference}");
}
