//! Mistakes with the versions of images: reading, writing, moves and the check of letters.

use differ::Answer;
use make::questions::Question;

use crate::{found, plain};

/// What is told of an image of version 2 that passes.
fn lettered(image: &[u8]) -> Option<plain::Image> {
    Some(plain::image(image)).filter(|told| told.version == 2)
}

/// The image with one octet of its last entry changed.
fn with(image: &[u8], at: usize, octet: impl Fn(u8) -> u8) -> Vec<u8> {
    let mut changed = image.to_vec();
    let at = image.len() - 24 + at;
    changed[at] = octet(changed[at]);
    changed
}

#[test]
fn padding_is_not_tested() {
    found(
        |question, output| match (plain(question, output), question) {
            (told, Question::Image(image)) if told.head() == (5, 6) && image.len() >= 24 => {
                let cleared = with(&with(image, 10, |_| 0), 11, |_| 0);
                match lettered(&cleared) {
                    Some(told) => told.into(),
                    None => told,
                }
            }
            (told, _) => told,
        },
        |question| matches!(question, Question::Image(_)),
    );
}

#[test]
fn the_version_is_told_as_1() {
    found(
        |question, output| match plain(question, output) {
            Answer::Image(told) if told.number == 0 => Answer::Image(plain::Image { version: 1, ..told }),
            told => told,
        },
        |question| matches!(question, Question::Image(_) | Question::ImageForDay(..)),
    );
}

#[test]
fn letters_are_lost_on_reading() {
    found(
        |question, output| match plain(question, output) {
            Answer::Entry(told) => Answer::Entry(plain::Entry { country: [0, 0], ..told }),
            told => told,
        },
        |question| matches!(question, Question::Entry(..)),
    );
}

#[test]
fn entries_of_8_octets_in_version_2() {
    found(
        |question, output| match question {
            // What version 1 would answer of the same bytes.
            Question::Image(image) if lettered(image).is_some() => {
                let at = image.len() - 5;
                let mut labelled = image.clone();
                labelled[at] = 1;
                plain::image(&labelled).into()
            }
            _ => plain(question, output),
        },
        |question| matches!(question, Question::Image(_)),
    );
}

#[test]
fn any_letters_are_written_in_version_1() {
    found(
        |question, output| match question {
            Question::Write { items, kinds, flags, lengths, letters, version: 1, day, .. } => {
                let (none, out) = (vec![0; letters.len()], &mut output.octets);
                plain::write(items, kinds, flags, lengths, &none, 1, *day, out).into()
            }
            _ => plain(question, output),
        },
        |question| matches!(question, Question::Write { .. }),
    );
}

#[test]
fn letters_that_are_too_few_are_filled_up() {
    found(
        |question, output| match question {
            Question::Write { items, kinds, flags, lengths, letters, version, day, .. } => {
                let (mut filled, out) = (letters.clone(), &mut output.octets);
                filled.resize(filled.len().max(2 * kinds.len()), 0);
                plain::write(items, kinds, flags, lengths, &filled, *version, *day, out).into()
            }
            _ => plain(question, output),
        },
        |question| matches!(question, Question::Write { .. }),
    );
}

#[test]
fn a_version_is_cut_to_an_octet() {
    found(
        |question, output| match question {
            Question::Write { items, kinds, flags, lengths, letters, version, day, .. } => {
                let (version, out) = (*version & 0xFF, &mut output.octets);
                plain::write(items, kinds, flags, lengths, letters, version, *day, out).into()
            }
            _ => plain(question, output),
        },
        |question| matches!(question, Question::Write { .. }),
    );
}

#[test]
fn a_failing_item_is_moved_with_its_issuers_letters() {
    found(
        |question, output| {
            let told = plain(question, output);
            if let (Question::MoveTo2(image, _), (0, 0)) = (question, told.head()) {
                let n = plain::image(image).entries as usize;
                let end = image.len() + 4 * n - 12;
                let letters = |place: usize| end - 12 * (n - place) + 8;
                // The letters of the place before, where it has none.
                for place in 1..n {
                    if output.octets[letters(place)] == 0 {
                        output.octets[letters(place)] = output.octets[letters(place - 1)];
                    }
                }
            }
            told
        },
        |question| matches!(question, Question::MoveTo2(..)),
    );
}

#[test]
fn an_item_is_judged_in_any_role_that_it_passes() {
    found(
        |question, output| {
            let told = plain(question, output);
            if let (Question::MoveTo2(image, _), (0, 0)) = (question, told.head()) {
                let n = plain::image(image).entries;
                for place in 0..n {
                    let entry = plain::entry(image, place);
                    let item = &image[entry.offset as usize..][..entry.length as usize];
                    let passes = (1..=3).map(|role| plain::certificate(item, role)).find(|told| told.number == 0);
                    let at = image.len() + 4 * n as usize - 12 - 12 * (n - place) as usize + 8;
                    if let Some(passes) = passes {
                        output.octets[at..at + 2].copy_from_slice(&passes.country);
                    }
                }
            }
            told
        },
        |question| matches!(question, Question::MoveTo2(..)),
    );
}

#[test]
fn a_version_2_image_is_moved_to_2() {
    found(
        |question, output| match question {
            Question::MoveTo2(image, _) if lettered(image).is_some() => {
                let mut one = vec![0; image.len()];
                let length = plain::move_to_1(image, &mut one).length as usize;
                plain::move_to_2(&one[..length], &mut output.octets).into()
            }
            _ => plain(question, output),
        },
        |question| matches!(question, Question::MoveTo2(..)),
    );
}

#[test]
fn another_version_is_told_after_the_other_rules() {
    found(
        |question, output| match (plain(question, output), question) {
            // Rule 2 told only where the image is good in its own version.
            (told, Question::MoveTo1(image, _)) if told.head() == (5, 2) => match plain::image(image) {
                plain::Image { number: 5, detail, .. } => {
                    Answer::Write(plain::Written { number: 5, detail, length: 0 })
                }
                _ => told,
            },
            (told, _) => told,
        },
        |question| matches!(question, Question::MoveTo1(..)),
    );
}

#[test]
fn short_outputs_are_told_before_the_limit() {
    found(
        |question, output| match (plain(question, output), question) {
            (told, Question::MoveTo2(..)) if told.head().0 == 3 => {
                Answer::Write(plain::Written { number: 9, detail: 0, length: 0 })
            }
            (told, _) => told,
        },
        |question| matches!(question, Question::MoveTo2(..)),
    );
}

#[test]
fn a_move_back_clears_what_is_beyond() {
    found(
        |question, output| {
            let told = plain(question, output);
            if let (Question::MoveTo1(..), Answer::Write(plain::Written { number: 0, length, .. })) = (question, told) {
                output.octets[length as usize..].fill(0);
            }
            told
        },
        |question| matches!(question, Question::MoveTo1(..)),
    );
}

#[test]
fn the_last_letters_are_not_checked() {
    found(
        |question, output| match question {
            Question::Letters(image) if lettered(image).is_some_and(|told| told.entries > 0) => {
                let mut one = vec![0; image.len()];
                let mut two = one.clone();
                let length = plain::move_to_1(image, &mut one).length as usize;
                plain::move_to_2(&one[..length], &mut two);
                let last = two.len() - 16;
                let mut changed = image.clone();
                changed[last..last + 2].copy_from_slice(&two[last..last + 2]);
                plain::letters(&changed).into()
            }
            _ => plain(question, output),
        },
        |question| matches!(question, Question::Letters(_)),
    );
}

#[test]
fn zeros_are_always_true_letters() {
    found(
        |question, output| match (plain(question, output), question) {
            (Answer::Letters(told), Question::Letters(image)) if told.number == 0 && told.letters_true == 0 => {
                let n = lettered(image).map_or(0, |told| told.entries as usize);
                let at = |place: usize| image.len() - 12 - 12 * (n - place) + 8;
                let mut two = vec![0; image.len()];
                let mut one = two.clone();
                let length = plain::move_to_1(image, &mut one).length as usize;
                plain::move_to_2(&one[..length], &mut two);
                let fits = |place: usize| {
                    let (here, there) = (&image[at(place)..][..2], &two[at(place)..][..2]);
                    here == [0, 0] || here == there
                };
                Answer::Letters(plain::Letters { letters_true: (0..n).all(fits) as u64, ..told })
            }
            (told, _) => told,
        },
        |question| matches!(question, Question::Letters(_)),
    );
}
