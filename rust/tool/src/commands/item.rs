//! `vrbolist item`: one certificate or CRL against its profile.

use super::Command;
use crate::answer::Answer;
use crate::args::{Given, Takes};
use crate::explain::{self, Judged};
use crate::facts;
use crate::files::{self, Item};
use crate::json::{object, Json};
use crate::names;
use crate::places::{judge, kind_name, kind_number, Told};
use crate::stop::Stop;
use crate::text::{hex, letters, moment, printable, wrapped};
use vrbolist::{Certificate, Crl, Refusal};

pub const COMMAND: Command = Command {
    name: "item",
    help: "\
vrbolist item FILE --as anchor|link|signer|crl [--json]

Judges one item against the profile of its kind. Passed: its fields. Refused: the rule of the
profile that is broken, with what the item says, or the byte that is not DER. FILE is DER or PEM.

Examples:
  vrbolist item tests/data/made/ut-signer-1.der --as signer
  vrbolist item tests/data/made/ut-crl-today.der --as crl --json
",
    takes: Takes { alone: &["FILE"], options: &["--as"], switches: &[] },
    run,
};

fn run(given: &Given) -> Result<Answer, Stop> {
    let word = given.wanted("--as", "anchor|link|signer|crl")?.to_string_lossy();
    let kind = kind_number(&word)
        .ok_or_else(|| Stop::usage(format!("--as {}: give anchor, link, signer or crl", printable(&word))))?;
    let item = files::read_item(given.word(0))?;
    let head = format!(
        "{}  as {}, read as {}, {} bytes\n",
        files::shown(given.word(0)),
        kind_name(kind),
        item.form,
        item.bytes.len()
    );
    let base = object! {
        "command": "item", "file": files::shown(given.word(0)), "as": kind_name(kind), "form": item.form.as_str(),
        "size": item.bytes.len(),
    };
    Ok(match judge(&item.bytes, kind) {
        Told::Certificate(told) => Answer::passed(head + &certificate_text(&told), base, certificate_json(&told)),
        Told::Crl(told) => Answer::passed(head + &crl_text(&told), base, crl_json(&told)),
        Told::Refused(refusal) => refused(head, base, refusal, &item, kind),
    })
}

fn refused(head: String, base: Json, refusal: Refusal, item: &Item, kind: u64) -> Answer {
    let judged = if kind == 4 { Judged::Crl } else { Judged::Certificate };
    let mut answer = Answer::refused(head, base, refusal, &explain::of_item(judged, refusal, item));
    let facts = if refusal.number == 4 { facts::lines(&item.bytes) } else { Vec::new() };
    if !facts.is_empty() {
        answer.text.push_str("  What the item says, each with its byte:\n");
        facts.iter().for_each(|line| answer.text.extend([line.as_str(), "\n"]));
    }
    answer
}

fn row(name: &str, value: &str) -> String {
    format!("  {name:<20}{value}\n")
}

fn name_row(label: &str, der: &[u8]) -> String {
    let text = wrapped(&names::name(der), 22);
    row(label, text.trim()) + &row("", &format!("{} bytes (hex {:x})", der.len(), der.len()))
}

fn certificate_text(told: &Certificate<'_>) -> String {
    let key = |id: Option<&[u8]>| id.map_or("absent".to_string(), hex);
    [
        "PASSED   all fourteen rules hold\n".to_string(),
        row("country", &letters(told.country)),
        row("valid from", &format!("{} UTC", moment(told.start))),
        row("valid to", &format!("{} UTC", moment(told.end))),
        row("serial", &hex(told.serial)),
        name_row("issuer", told.issuer),
        name_row("subject", told.subject),
        row("key", &format!("{} bytes (hex {:x})", told.key.len(), told.key.len())),
        row("subject key id", &key(told.subject_key_id)),
        row("authority key id", &key(told.authority_key_id)),
    ]
    .concat()
}

pub fn certificate_json(told: &Certificate<'_>) -> Json {
    object! {
        "country": letters(told.country),
        "from": told.start,
        "to": told.end,
        "serial": hex(told.serial),
        "issuer": names::name(told.issuer),
        "subject": names::name(told.subject),
        "subject_key_id": told.subject_key_id.map(hex),
        "authority_key_id": told.authority_key_id.map(hex),
        "issuer_size": told.issuer.len(),
        "subject_size": told.subject.len(),
        "key_size": told.key.len(),
    }
}

fn crl_text(told: &Crl<'_>) -> String {
    [
        "PASSED   all eight rules hold\n".to_string(),
        row("country", &letters(told.country)),
        row("this update", &format!("{} UTC", moment(told.this_update))),
        row("next update", &format!("{} UTC", moment(told.next_update))),
        row("entries", &told.entries.to_string()),
        name_row("issuer", told.issuer),
    ]
    .concat()
}

pub fn crl_json(told: &Crl<'_>) -> Json {
    object! {
        "country": letters(told.country),
        "from": told.this_update,
        "to": told.next_update,
        "entries": told.entries,
        "issuer": names::name(told.issuer),
        "issuer_size": told.issuer.len(),
    }
}
