//! The question for every signer, answered by the library's single questions.

use make::questions::Question;
use vrbolist::answers;

use crate::answer::Answer;
use crate::reader::{Lent, Library, Reader};

/// The proved library, asked for one signer after the other.
pub struct OneByOne;

impl Reader for OneByOne {
    fn answer(&self, question: &mut Question, output: &mut Lent) -> Answer {
        match question {
            Question::Signers { image, table, moment, .. } => signers(image, table, *moment, &mut output.octets).into(),
            _ => Library.answer(question, output),
        }
    }
}

fn signers(image: &[u8], table: &[u8], moment: u64, out: &mut [u8]) -> plain::Signers {
    let told = answers::image(image);
    let n = told.entries as usize;
    let refused = |number, detail| plain::Signers { number, detail, length: 0 };
    if told.number != 0 {
        return refused(told.number, told.detail);
    }
    if table.len() != n * n || table.iter().any(|&verdict| verdict > 1) || !real(moment) {
        return refused(1, 0);
    }
    let Some(records) = out.get_mut(..97 * n) else {
        return refused(9, 0);
    };
    for (place, record) in records.chunks_exact_mut(97).enumerate() {
        let single = answers::chain(image, table, moment, place as u64);
        record[0] = single.length as u8;
        record[1..].copy_from_slice(&single.places);
    }
    plain::Signers { number: 0, detail: 0, length: 97 * n as u64 }
}

fn real(moment: u64) -> bool {
    let (day, clock) = (moment / 1_000_000, moment % 1_000_000);
    answers::day_difference(day, day).number == 0 && clock / 10_000 < 24 && clock / 100 % 100 < 60 && clock % 100 < 60
}
