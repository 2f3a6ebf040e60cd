//! Mistakes with every signer in one call.

use differ::{Answer, Lent};
use make::questions::Question;

use crate::{found, plain};

const RECORD: usize = 97;

/// The plain reader's answer, and the octets it wrote where it wrote records.
fn written(question: &mut Question, output: &mut Lent) -> (Answer, usize) {
    match plain(question, output) {
        Answer::Signers(told) => (Answer::Signers(told), told.length as usize),
        told => (told, 0),
    }
}

fn for_signers(question: &Question) -> bool {
    matches!(question, Question::Signers { .. })
}

#[test]
fn records_are_shifted_by_one_place() {
    found(
        |question, output| {
            let (told, length) = written(question, output);
            if length > 0 {
                output.octets[..length].rotate_right(RECORD);
            }
            told
        },
        for_signers,
    );
}

#[test]
fn a_place_that_is_no_signer_has_a_length() {
    found(
        |question, output| {
            let (told, length) = written(question, output);
            let chains = output.octets[..length].chunks_exact(RECORD);
            let anchors: Vec<u8> = chains.filter(|record| record[0] > 0).map(|record| record[1]).collect();
            for anchor in anchors {
                let record = &mut output.octets[RECORD * anchor as usize..][..2];
                record.copy_from_slice(&[1, anchor]);
            }
            told
        },
        for_signers,
    );
}

#[test]
fn the_last_signer_is_left_out() {
    found(
        |question, output| {
            let (told, length) = written(question, output);
            let mut records = output.octets[..length].chunks_exact_mut(RECORD);
            if let Some(record) = records.rfind(|record| record[0] > 0) {
                record.fill(255);
                record[0] = 0;
            }
            told
        },
        for_signers,
    );
}

#[test]
fn an_octet_beyond_the_records_is_written() {
    found(
        |question, output| {
            let (told, length) = written(question, output);
            if let Some(beyond) = output.octets.get_mut(length).filter(|_| length > 0) {
                *beyond = 255;
            }
            told
        },
        for_signers,
    );
}
