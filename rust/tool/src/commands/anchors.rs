//! `vrbolist anchors`: the enabled anchors of a country.

use super::image::{listing, of_version, places_json};
use super::Command;
use crate::answer::Answer;
use crate::args::{Given, Takes};
use crate::explain::{self, Judged};
use crate::files;
use crate::json::{object, Json};
use crate::letters;
use crate::places::{self, Place};
use crate::stop::{self, Stop};
use crate::text::{counted, printable};
use std::ffi::OsStr;
use vrbolist::Refusal;

pub const COMMAND: Command = Command {
    name: "anchors",
    help: "\
vrbolist anchors IMAGE --country UT [--by-index] [--json]

The places of a trust image that hold an enabled anchor of a country: one that passes its profile
and reports these two letters. Its times play no part.
An image of version 2 has the letters in its index. With --by-index they are checked first, and the
index alone then answers; where some are not the item's nothing is answered, and the exit status is
65.

Example:
  vrbolist pack two.image --day 20261115 --version 2 --anchor tests/data/made/ut-anchor-1.der \\
    --anchor tests/data/made/xo-anchor-1.der --force
  vrbolist anchors two.image --country XO
  vrbolist anchors two.image --country XO --by-index
",
    takes: Takes { alone: &["IMAGE"], options: &["--country"], switches: &["--by-index"] },
    run,
};

fn run(given: &Given) -> Result<Answer, Stop> {
    let word = given.wanted("--country", "UT")?;
    let country = two(word)?;
    let by_index = given.has("--by-index");
    let bytes = files::read(given.word(0))?;
    let head = format!("{}  {} bytes\n", files::shown(given.word(0)), bytes.len());
    let base = object! {
        "command": "anchors", "file": files::shown(given.word(0)), "size": bytes.len(), "country": files::shown(word),
        "by_index": by_index,
    };
    let told = if by_index { indexed(&bytes, country) } else { vrbolist::anchors(&bytes, country).map(Some) };
    Ok(match told {
        Ok(Some(found)) => passed(head, base, &bytes, &found, &files::shown(word), by_index),
        Ok(None) => untrue(head, base, &bytes),
        Err(refusal) => Answer::refused(head, base, refusal, &words(refusal, &bytes, by_index)),
    })
}

/// Whether they are letters is for the library.
fn two(word: &OsStr) -> Result<[u8; 2], Stop> {
    let shown = word.to_string_lossy();
    let country = shown.as_bytes().try_into();
    country.map_err(|_| Stop::usage(format!("{} is no country: two letters are wanted", printable(&shown))))
}

/// By the index of an image whose letters are true, nothing where they are not. As without the index, a country that is none is
/// told before the image.
fn indexed(bytes: &[u8], country: [u8; 2]) -> Result<Option<Vec<u8>>, Refusal> {
    match vrbolist::lettered(bytes) {
        Ok(Some(image)) => image.anchors(country).map(Some),
        told => match vrbolist::anchors(bytes, country) {
            Err(refusal) if refusal.number == 1 => Err(refusal),
            _ => told.map(|_| None),
        },
    }
}

fn passed(head: String, base: Json, bytes: &[u8], found: &[u8], country: &str, by_index: bool) -> Answer {
    let (all, version) = places(bytes);
    let listed: Vec<Place<'_>> = all.into_iter().filter(|place| found.contains(&(place.number as u8))).collect();
    let how = if by_index { ", by the index: its letters are true" } else { "" };
    let said = format!("PASSED   {} of {country}{how}\n", counted(listed.len(), "enabled anchor"));
    let fields = object! { "anchors": places_json(&listed) };
    Answer::passed(head + &said + &listing(&listed, version), base, fields)
}

/// The letters are not true, so the index is not asked.
fn untrue(head: String, base: Json, bytes: &[u8]) -> Answer {
    let (all, _) = places(bytes);
    let note = "Note: by the index nothing is answered of such an image. Ask without --by-index.\n";
    Answer {
        status: stop::FAULTY,
        text: head + &letters::checked(false, &all) + note,
        json: base.with(object! { "passed": false, "letters_true": false }),
    }
}

/// The places of a good image, and its version.
fn places(bytes: &[u8]) -> (Vec<Place<'_>>, u64) {
    vrbolist::image(bytes).map_or((Vec::new(), 1), |image| (places::all(bytes, image.entries), image.version))
}

fn words(refusal: Refusal, bytes: &[u8], by_index: bool) -> Vec<String> {
    match refusal.number {
        1 => vec!["A country is two letters, each from A to Z.".to_string()],
        _ if by_index => of_version(refusal, bytes, 2),
        _ => explain::paragraphs(Judged::Image, refusal, bytes),
    }
}
