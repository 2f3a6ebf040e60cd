//! The questions by name, each made alone from a fixed seed.

use differ::{Answer, ByRounds, Lent, Library, Plain, Reader};
use make::certificate::{Certificate, ANCHOR, LINK, SIGNER};
use make::columns::Columns;
use make::crl::Crl;
use make::image::Image;
use make::questions::Question;
use make::tray::{nights, record, BURN, RECORD};
use make::world::World;

use crate::images::{self, chain, realistic, DAY};
use crate::items::{self, ITEM};
use crate::worst;

/// The questions of the table.
pub const QUESTIONS: &[&str] = &[
    "walk-certificate",
    "walk-16k",
    "walk-oids",
    "walk-nulls",
    "walk-deep",
    "anchor",
    "link",
    "signer",
    "signer-two-strangers",
    "signer-strangers",
    "crl-16k",
    "crl-reasons",
    "crl-some-reasons",
    "crl-empty-lists",
    "crl-late-times",
    "crl-last-days",
    "crl-short",
    "crl-none",
    "crl-entry-extended",
    "crl-extended",
    "crl-age-16k",
    "image-read",
    "image-write",
    "image-write-real",
    "image-read-lettered",
    "image-write-lettered",
    "image-forth",
    "image-back",
    "image-room",
    "image-room-full",
    "image-letters",
    "anchors-read",
    "anchors-full",
    "anchors-index",
    "days",
    "chain-usual-two",
    "chain-usual-five",
    "chain-usual-none",
    "chain-strangers",
    "chain-long-names",
    "chain-extended",
    "chain-dense",
    "chain-sparse",
    "chain-line",
    "rounds-dense",
    "rounds-sparse",
    "rounds-line",
    "signers-dense",
    "signers-sparse",
    "signers-line",
    "proposal-dense",
    "proposal-sparse",
    "proposal-line",
    "all-dense",
    "all-sparse",
    "all-line",
    "all-usual",
    "all-usual-16k",
    "replay-good",
    "replay-faulty",
    "replay-short-list",
];

/// The dearest that a search found, with the most instructions that they may cost.
pub const WORST: &[(&str, u64)] =
    &[("worst-certificate", 16_000_000), ("worst-crl", 16_000_000), ("worst-chain", 280_000_000)];

/// The same questions at four sizes. The number is bytes, extensions, entries, places, or entries in each of four CRLs.
pub const GROWTH: &[&str] = &[
    "walk-bytes-2048",
    "walk-bytes-4096",
    "walk-bytes-8192",
    "walk-bytes-16384",
    "signer-extensions-8",
    "signer-extensions-64",
    "signer-extensions-256",
    "signer-extensions-1000",
    "crl-entries-85",
    "crl-entries-170",
    "crl-entries-340",
    "crl-entries-680",
    "chain-dense-places-12",
    "chain-dense-places-24",
    "chain-dense-places-48",
    "chain-dense-places-96",
    "chain-line-places-12",
    "chain-line-places-24",
    "chain-line-places-48",
    "chain-line-places-96",
    "chain-line-entries-85",
    "chain-line-entries-170",
    "chain-line-entries-340",
    "chain-line-entries-680",
];

/// The records of a log.
const RECORDS: usize = 1_000_000;

/// A log in which every eighth record is faulty: a burn of a unit that was burnt.
fn yesterday() -> Vec<u8> {
    let mut log = nights(RECORDS, 19500101);
    for number in (7..RECORDS).step_by(8) {
        log[number * RECORD..][..RECORD].copy_from_slice(&record(BURN, 1, 0));
    }
    log
}

/// The most bytes of an image.
const ROOM: usize = 262_144;

/// The library as a name asks it: by rounds, or as it answers first.
pub fn library(name: &str) -> &'static dyn Reader {
    if name.starts_with("rounds-") {
        &ByRounds
    } else {
        &Library
    }
}

/// The questions of a name.
pub fn named(name: &str) -> Option<Vec<Question>> {
    if let Some((what, number)) = name.rsplit_once('-') {
        if let Ok(number) = number.parse() {
            return sized(what, number);
        }
    }
    if let Some(question) = item(name) {
        return Some(vec![question]);
    }
    match name.split_once('-')? {
        ("chain", "strangers") => Some(images::strangers()),
        ("chain", "long-names") => Some(images::long_names()),
        ("chain", "extended") => Some(images::extended()),
        ("chain", usual) if usual.starts_with("usual-") => images::usual(&usual["usual-".len()..], 40),
        ("chain" | "rounds", shape) => chain(shape, 96, 40, false),
        ("anchors", how) => images::anchors(how),
        ("all", "usual") => images::in_one_call(images::usual("two", 40)?),
        ("all", "usual-16k") => images::in_one_call(images::usual("two", 317)?),
        ("all", shape) => images::in_one_call(chain(shape, 96, 40, false)?),
        ("signers", shape) => chain(shape, 96, 40, true),
        ("proposal", shape) => Some(chain(shape, 96, 40, false)?.into_iter().filter_map(proposed).collect()),
        ("worst", "certificate") => Some(worst::CERTIFICATE.asked()),
        ("worst", "crl") => Some(worst::LIST.asked()),
        ("worst", "chain") => Some(worst::CHAIN.asked()),
        _ => None,
    }
}

/// A question about one item or image.
fn item(name: &str) -> Option<Question> {
    Some(match name {
        "walk-certificate" => Question::Walk(Certificate::typical(SIGNER).encode()),
        "walk-16k" => Question::Walk(items::many(ITEM)),
        "walk-oids" => Question::Walk(items::alike(&[6, 1, 0x2A])),
        "walk-nulls" => Question::Walk(items::alike(&[5, 0])),
        "walk-deep" => Question::Walk(items::deep()),
        "anchor" => Question::Certificate(Certificate::typical(ANCHOR).encode(), ANCHOR),
        "link" => Question::Certificate(Certificate::typical(LINK).encode(), LINK),
        "signer" => Question::Certificate(Certificate::typical(SIGNER).encode(), SIGNER),
        "signer-two-strangers" => Question::Certificate(items::signer_with_two_strangers(), SIGNER),
        "signer-strangers" => Question::Certificate(items::signer_with_strangers(1326), SIGNER),
        "crl-16k" => Question::Crl(items::crl_of_16k()),
        "crl-reasons" => Question::Crl(items::crl_with_reasons()),
        "crl-some-reasons" => Question::Crl(items::crl_with_some_reasons()),
        "crl-empty-lists" => Question::Crl(items::crl_with_empty_lists()),
        "crl-late-times" => Question::Crl(items::crl_with_late_times()),
        "crl-last-days" => Question::Crl(items::crl_with_last_days()),
        "crl-short" => Question::Crl(items::SHORT.to_vec()),
        "crl-none" => Question::Crl(items::NO_ENTRIES.to_vec()),
        "crl-entry-extended" => Question::Crl(items::crl_with_one_entry()),
        "crl-extended" => Question::Crl(items::crl_with_extensions()),
        "crl-age-16k" => Question::Age(items::crl_of_16k(), DAY),
        "image-read" => Question::Image(realistic(World::line, 96, 40).0.encode()),
        "image-write" => written(realistic(World::line, 96, 40).0),
        "image-write-real" => {
            let mut image = Image::new(DAY as u32);
            for _ in 0..96 {
                image.add(SIGNER as u8, 0, items::signer_of(2140));
            }
            written(image)
        }
        "image-read-lettered" => Question::Image(lettered()),
        "image-write-lettered" => written(realistic(World::line, 96, 40).0.of_version(2)),
        "image-forth" => Question::MoveTo2(realistic(World::line, 96, 40).0.encode(), ROOM),
        "image-back" => Question::MoveTo1(lettered(), ROOM),
        "image-room" => images::room(true),
        "image-room-full" => images::room(false),
        "image-letters" => Question::Letters(lettered()),
        "days" => Question::Days(19500101, 20240301),
        "replay-good" => Question::Replay { log: nights(RECORDS, 19500101), room: RECORDS },
        "replay-faulty" => Question::Replay { log: yesterday(), room: RECORDS },
        "replay-short-list" => Question::Replay { log: yesterday(), room: RECORDS - 1 },
        _ => return None,
    })
}

/// The best chain of a question, as a proposal.
fn proposed(mut question: Question) -> Option<Question> {
    let Answer::Chain(told) = Plain.answer(&mut question, &mut Lent::default()) else { return None };
    let Question::Chain { image, table, moment, target } = question else { return None };
    let places = told.places[..told.length as usize].to_vec();
    Some(Question::Proposal { image, table, moment, target, places })
}

fn written(image: Image) -> Question {
    let Columns { items, kinds, flags, lengths, letters, version, day } = Columns::of(&image);
    Question::Write { items, kinds, flags, lengths, letters, version, day, room: ROOM }
}

/// The image of 96 items in version 2, with the true letters.
fn lettered() -> Vec<u8> {
    let mut out = vec![0; ROOM];
    let moved = plain::move_to_2(&realistic(World::line, 96, 40).0.encode(), &mut out);
    out.truncate(moved.length as usize);
    out
}

fn sized(what: &str, number: usize) -> Option<Vec<Question>> {
    let question = match what {
        "walk-bytes" => Question::Walk(items::many(number)),
        "signer-extensions" => Question::Certificate(items::extended(number), SIGNER),
        "crl-entries" => Question::Crl(Crl::typical(number).encode()),
        "chain-dense-places" => return chain("dense", number, 40, false),
        "chain-line-places" => return chain("line", number, 40, false),
        "chain-line-entries" => return chain("line", 24, number, false),
        _ => return None,
    };
    Some(vec![question])
}
