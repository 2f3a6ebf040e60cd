//! Those who answer questions.

use make::questions::Question;
use vrbolist::answers;

use crate::answer::Answer;
use crate::one_by_one::OneByOne;

/// What is lent to be written: octets for an image, octets for its table, numbers for faulty records.
#[derive(Clone, Debug, Default, PartialEq, Eq)]
pub struct Lent {
    pub octets: Vec<u8>,
    pub table: Vec<u8>,
    pub list: Vec<u64>,
}

/// Answers a question. `output` is what is lent to be written, of the length that
/// the question says. A reader keeps the question as it is.
pub trait Reader {
    fn answer(&self, question: &mut Question, output: &mut Lent) -> Answer;

    /// The same reader by another way to this answer, where it has one.
    fn other(&self, _question: &Question) -> Option<&dyn Reader> {
        None
    }
}

/// The proved library.
pub struct Library;

/// The proved library by its second search for chains.
pub struct ByRounds;

/// The proved library, asked for anchors by the index. Where an image's letters are true its answers are the full ones.
pub struct ByIndex;

impl Reader for ByIndex {
    fn answer(&self, question: &mut Question, output: &mut Lent) -> Answer {
        match question {
            Question::Anchors(image, first, second) => answers::anchors_by_index(image, *first, *second).into(),
            _ => Library.answer(question, output),
        }
    }
}

/// The plain reader.
pub struct Plain;

macro_rules! reader {
    ($name:ident, $of:ident, $chain:ident $(, $other:item)?) => {
        impl Reader for $name {
            fn answer(&self, question: &mut Question, output: &mut Lent) -> Answer {
                match question {
                    Question::Walk(item) => $of::walk(item).into(),
                    Question::Integer(item) => $of::integer(item).into(),
                    Question::Certificate(item, role) => $of::certificate(item, *role).into(),
                    Question::Crl(item) => $of::crl(item).into(),
                    Question::Days(first, second) => $of::day_difference(*first, *second).into(),
                    Question::Age(item, day) => $of::crl_age(item, *day).into(),
                    Question::Image(image) => $of::image(image).into(),
                    Question::ImageForDay(image, wanted) => $of::image_for_day(image, *wanted).into(),
                    Question::Entry(image, place) => $of::entry(image, *place).into(),
                    Question::Write { items, kinds, flags, lengths, letters, version, day, .. } => {
                        let out = &mut output.octets;
                        $of::write(items, kinds, flags, lengths, letters, *version, *day, out).into()
                    }
                    Question::MoveTo2(image, _) => $of::move_to_2(image, &mut output.octets).into(),
                    Question::MoveTo1(image, _) => $of::move_to_1(image, &mut output.octets).into(),
                    Question::Letters(image) => $of::letters(image).into(),
                    Question::Room { image, table, moment, .. } => {
                        $of::make_room(image, table, *moment, &mut output.octets, &mut output.table).into()
                    }
                    Question::Anchors(image, first, second) => $of::anchors(image, *first, *second).into(),
                    Question::AnchorsByIndex(image, first, second) => {
                        $of::anchors_by_index(image, *first, *second).into()
                    }
                    Question::Chain { image, table, moment, target } => {
                        $of::$chain(image, table, *moment, *target).into()
                    }
                    Question::Proposal { image, table, moment, target, places } => {
                        $of::proposal(image, table, *moment, *target, places).into()
                    }
                    Question::Signers { image, table, moment, .. } => {
                        $of::all_signers(image, table, *moment, &mut output.octets).into()
                    }
                    Question::Replay { log, .. } => $of::replay(log, &mut output.list).into(),
                }
            }

            $($other)?
        }
    };
}

reader!(
    Library,
    answers,
    chain,
    fn other(&self, question: &Question) -> Option<&dyn Reader> {
        match question {
            Question::Chain { .. } => Some(&ByRounds),
            Question::Signers { .. } => Some(&OneByOne),
            Question::Anchors(image, ..) if answers::letters(image).letters_true == 1 => Some(&ByIndex),
            _ => None,
        }
    }
);
reader!(ByRounds, answers, chain_by_rounds);
reader!(Plain, plain, chain);
