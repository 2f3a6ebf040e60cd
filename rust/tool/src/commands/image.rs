//! `vrbolist image`: a trust image, its day and its places.

use super::item::{certificate_json, crl_json};
use super::Command;
use crate::answer::Answer;
use crate::args::{self, Given, Takes};
use crate::explain::{self, Judged};
use crate::files;
use crate::json::{object, Json};
use crate::letters;
use crate::places::{self, kind_name, Place, Told};
use crate::stop::{self, Stop};
use crate::text::{self, counted, day};
use vrbolist::{Image, Refusal};

pub const COMMAND: Command = Command {
    name: "image",
    help: "\
vrbolist image FILE [--day YYYYMMDD] [--letters] [--json]

Reads a trust image: its day and version, and a line for each place with what the library says of
the item. With --day an image of another day is refused with 6: run this before flashing. An item
that does not pass its profile is told and does not refuse the image: no chain ever uses it.
An image of version 2 has the letters of a country for each item. Reading does not test them; with
--letters they are checked, and the exit status is 65 where some are not the item's.

Example:
  vrbolist pack small.image --day 20261115 --anchor tests/data/made/ut-anchor-1.der --force
  vrbolist image small.image --day 20261115
  vrbolist pack two.image --day 20261115 --version 2 --crl tests/data/made/xo-crl.der --force
  vrbolist image two.image --letters
",
    takes: Takes { alone: &["FILE"], options: &["--day"], switches: &["--letters"] },
    run,
};

fn run(given: &Given) -> Result<Answer, Stop> {
    let wanted = given.option("--day")?.map(|word| args::number(word, "day YYYYMMDD")).transpose()?;
    let bytes = files::read(given.word(0))?;
    let told = match wanted {
        Some(day) => vrbolist::image_for_day(&bytes, day),
        None => vrbolist::image(&bytes),
    };
    let head = format!("{}  {} bytes\n", files::shown(given.word(0)), bytes.len());
    let base = object! {
        "command": "image", "file": files::shown(given.word(0)), "size": bytes.len(), "wanted_day": wanted,
    };
    Ok(match told {
        Ok(image) => passed(head, base, &bytes, image, wanted, given.has("--letters")),
        Err(refusal) => {
            let day = vrbolist::image(&bytes).ok().map(|image| image.day);
            Answer::refused(head, base.with(object! { "day": day }), refusal, &words(refusal, &bytes, wanted))
        }
    })
}

fn passed(head: String, base: Json, bytes: &[u8], image: Image, wanted: Option<u64>, check: bool) -> Answer {
    let places = places::all(bytes, image.entries);
    let (of, count) = (day(image.day), counted(places.len(), "place"));
    let asked = if wanted.is_some() { ", as wanted" } else { "" };
    let said = format!("PASSED   image of {of}{asked}, version {}, {count}\n", image.version);
    let text = said + &listing(&places, image.version);
    let fields = object! { "day": image.day, "version": image.version, "places": places_json(&places) };
    match check.then(|| vrbolist::letters(bytes)) {
        None => Answer::passed(head + &text, base, fields),
        Some(Ok(all_true)) => Answer {
            status: if all_true { 0 } else { stop::FAULTY },
            text: head + &text + &letters::checked(all_true, &places),
            json: base.with(object! { "passed": all_true, "letters_true": all_true }).with(fields),
        },
        Some(Err(refusal)) => {
            let base = base.with(object! { "day": image.day, "version": image.version });
            Answer::refused(head, base, refusal, &of_version(refusal, bytes, 2))
        }
    }
}

/// Why an image was refused where one of a version was wanted.
pub fn of_version(refusal: Refusal, bytes: &[u8], wanted: u64) -> Vec<String> {
    if (refusal.number, refusal.detail) != (5, 2) {
        return explain::paragraphs(Judged::Image, refusal, bytes);
    }
    let mut words = vec![format!("Broken is rule 2 of the trust image: here its version has to be {wanted}.")];
    if let Ok(image) = vrbolist::image(bytes) {
        words.push(format!("The image is of version {}. See vrbolist convert.", image.version));
    }
    words
}

/// Why an image was refused, for a wanted day too.
pub fn words(refusal: Refusal, bytes: &[u8], wanted: Option<u64>) -> Vec<String> {
    let wanted = wanted.unwrap_or_default();
    match (refusal.number, vrbolist::image(bytes)) {
        (1, _) => vec![format!("The wanted day {wanted} is not a real day of 1950 to 2099.")],
        (6, Ok(image)) => {
            vec![format!("The image is of {}, wanted is {}{}.", day(image.day), day(wanted), older(image.day, wanted))]
        }
        _ => explain::paragraphs(Judged::Image, refusal, bytes),
    }
}

fn older(from: u64, to: u64) -> String {
    match vrbolist::day_difference(from, to) {
        Ok(days) if days > 0 => {
            format!(": it is older by {}. Do not flash it; fetch the image of the day", spell(days))
        }
        Ok(days) if days < 0 => format!(": it is of a later day, by {}. Check the day", spell(days)),
        _ => String::new(),
    }
}

fn spell(days: i64) -> String {
    counted(usize::try_from(days.unsigned_abs()).unwrap_or(usize::MAX), "day")
}

/// A line for each place; in version 2 with the letters of the index.
pub fn listing(places: &[Place<'_>], version: u64) -> String {
    if places.is_empty() {
        return String::new();
    }
    let column = if version == 2 { "letters  " } else { "" };
    let head = format!("place  kind    state      size  {column}country  from        to          profile\n");
    let lines: String = places.iter().map(|place| line(place, version)).collect();
    let bad = places.iter().filter(|place| matches!(place.told, Told::Refused(_))).count();
    let note = match bad {
        0 => String::new(),
        _ => format!(
            "Note: {} of {} do not pass; no chain uses them. See vrbolist item.\n",
            bad,
            counted(places.len(), "item")
        ),
    };
    head + &lines + &note
}

fn line(place: &Place<'_>, version: u64) -> String {
    let state = match (place.entry.kind, place.enabled()) {
        (1, true) => "enabled",
        (1, false) => "disabled",
        _ => "",
    };
    let column = if version == 2 { format!("  {:<7}", letters::shown(place.entry.country)) } else { String::new() };
    let (kind, size) = (kind_name(place.entry.kind), place.entry.item.len());
    let left = format!("{:>5}  {kind:<6}  {state:<8}  {size:>5}{column}", place.number);
    let row =
        |country, from, to| format!("{left}  {:<7}  {}  {}  passes\n", text::letters(country), date(from), date(to));
    match &place.told {
        Told::Certificate(told) => row(told.country, told.start, told.end),
        Told::Crl(told) => row(told.country, told.this_update, told.next_update),
        Told::Refused(refusal) => {
            format!("{left}  {:<7}  {:<10}  {:<10}  {}\n", "-", "-", "-", explain::short(*refusal))
        }
    }
}

fn date(moment: u64) -> String {
    day(moment / 1_000_000)
}

pub fn places_json(places: &[Place<'_>]) -> Vec<Json> {
    places.iter().map(place_json).collect()
}

fn place_json(place: &Place<'_>) -> Json {
    let base = object! {
        "place": place.number, "kind": kind_name(place.entry.kind), "enabled": place.enabled(),
        "size": place.entry.item.len(), "letters": letters::json(place.entry.country),
    };
    let passed = object! { "passed": true };
    base.with(match &place.told {
        Told::Certificate(told) => passed.with(certificate_json(told)),
        Told::Crl(told) => passed.with(crl_json(told)),
        Told::Refused(refusal) => {
            object! { "passed": false, "refusal": explain::json(*refusal, &judged(place, *refusal)) }
        }
    })
}

fn judged(place: &Place<'_>, refusal: Refusal) -> Vec<String> {
    let as_what = if place.entry.kind == 4 { Judged::Crl } else { Judged::Certificate };
    explain::paragraphs(as_what, refusal, place.entry.item)
}
