//! `vrbolist propose`: whether a proposed chain is a good one, or the first thing in it that fails.

use super::chain::{arguments, certificate_json, certificate_lines, kind_of, reasons_json, Question};
use super::image::words as image_words;
use super::Command;
use crate::answer::Answer;
use crate::args::{self, Given, Takes};
use crate::engine::Engine;
use crate::explain;
use crate::files;
use crate::json::{object, Json};
use crate::places;
use crate::reasons::{Failure, World};
use crate::stop::Stop;
use crate::table;
use crate::text::{counted, moment, wrapped};
use std::ffi::OsStr;
use vrbolist::Refusal;

pub const COMMAND: Command = Command {
    name: "propose",
    help: "\
vrbolist propose IMAGE --table T --at YYYYMMDDHHMMSS --signer PLACE --chain PLACE,PLACE,.. [--json]

Judges a chain that someone else proposes, its places from the anchor to the signer. It is accepted
where it is a good chain to the document signer at PLACE; it need not be the shortest, and a link
may stand in it twice. Else the first place or step that fails is told, and why.

T says who signed whom, as for vrbolist chain.

Example:
  vrbolist pack xo.image --day 20261115 --anchor tests/data/made/xo-anchor-1.der \\
    --signer tests/data/made/xo-signer-1.der --crl tests/data/made/xo-crl.der --force
  printf '111\\n000\\n000\\n' > xo.table
  vrbolist propose xo.image --table xo.table --at 20261115120000 --signer 1 --chain 0,1
",
    takes: Takes { alone: &["IMAGE"], options: &["--table", "--at", "--signer", "--chain"], switches: &[] },
    run,
};

fn run(given: &Given) -> Result<Answer, Stop> {
    let target = args::number(given.wanted("--signer", "PLACE")?, "place")?;
    let at = args::number(given.wanted("--at", "YYYYMMDDHHMMSS")?, "moment YYYYMMDDHHMMSS")?;
    let table_path = given.wanted("--table", "T")?;
    let chain = listed(given.wanted("--chain", "PLACE,PLACE,..")?)?;
    let image = files::read(given.word(0))?;
    let table = table::read(files::read(table_path)?)?;
    let proposed: Vec<Json> = chain.iter().map(|place| Json::from(*place)).collect();
    let base = object! {
        "command": "propose", "file": files::shown(given.word(0)), "at": at, "signer": target, "proposed": proposed,
    };
    let entries = match vrbolist::image(&image) {
        Ok(told) => told.entries,
        Err(refusal) => return Ok(Answer::refused(String::new(), base, refusal, &image_words(refusal, &image, None))),
    };
    let world = World::new(places::all(&image, entries), &table, at);
    let question = Question { image: &image, table: &table, at, engine: Engine::Queue };
    Ok(answer(base, &question, &world, target, &chain))
}

/// Numbers with commas between them; nothing at all is a chain of no places.
fn listed(word: &OsStr) -> Result<Vec<u64>, Stop> {
    let shown = word.to_string_lossy();
    if shown.is_empty() {
        return Ok(Vec::new());
    }
    shown.split(',').map(|place| args::number(OsStr::new(place), "place (numbers with commas between them)")).collect()
}

fn answer(base: Json, question: &Question<'_>, world: &World<'_>, target: u64, chain: &[u64]) -> Answer {
    // The library takes a place as a byte; no image has a place 255.
    let places: Vec<u8> = chain.iter().map(|place| u8::try_from(*place).unwrap_or(u8::MAX)).collect();
    match vrbolist::proposal(question.image, question.table, question.at, target, &places) {
        Ok(()) => accepted(base, question, world, target, &places),
        Err(refusal) if refusal.number == 7 => failed(base, question, world, target, (&places, refusal)),
        Err(refusal) => {
            let mut words = arguments(question, world, target, Some(target));
            words.extend(out_of_range(world, chain));
            Answer::refused(String::new(), base, refusal, &words)
        }
    }
}

/// What is out of the proposal's own range.
fn out_of_range(world: &World<'_>, chain: &[u64]) -> Vec<String> {
    let count = world.places.len();
    let mut out = Vec::new();
    if !(2..=96).contains(&chain.len()) {
        out.push(format!("The proposal has {}; 2 to 96 are wanted.", counted(chain.len(), "place")));
    }
    let missing = chain.iter().find(|place| usize::try_from(**place).map_or(true, |place| place >= count));
    if let Some(place) = missing {
        out.push(format!("The proposal names place {place}: the image has {count} places."));
    }
    out
}

fn shown(places: &[u8]) -> String {
    places.iter().map(u8::to_string).collect::<Vec<_>>().join(" > ")
}

fn accepted(base: Json, question: &Question<'_>, world: &World<'_>, target: u64, places: &[u8]) -> Answer {
    let each = || places.iter().map(|place| usize::from(*place));
    let head = format!("At {} UTC\nsigner {target}  PASSED   chain {}\n", moment(question.at), shown(places));
    let lines: String = each().map(|place| certificate_lines(world, place)).collect();
    let json: Vec<Json> = each().map(|place| certificate_json(world, place)).collect();
    Answer::passed(head + &lines, base, object! { "chain": json })
}

fn failed(base: Json, question: &Question<'_>, world: &World<'_>, target: u64, told: (&[u8], Refusal)) -> Answer {
    let (places, refusal) = told;
    let chain: Vec<usize> = places.iter().map(|place| usize::from(*place)).collect();
    let found = world.first_failure(&chain, usize::try_from(target).unwrap_or(usize::MAX));
    let head = format!(
        "At {} UTC\nsigner {target}  REFUSED  {}, detail {}: the proposal is no good chain\n  chain {}\n",
        moment(question.at),
        refusal.number,
        refusal.detail,
        shown(places)
    );
    let text = found.as_ref().map_or(String::new(), |failure| failure_text(world, failure));
    let words = ["The proposal is no good chain.".to_string()];
    let json = object! {
        "passed": false, "refusal": explain::json(refusal, &words), "fails": found.as_ref().map(failure_json),
    };
    Answer { status: crate::answer::status(refusal), text: head + &text, json: base.with(json) }
}

fn failure_text(world: &World<'_>, failure: &Failure) -> String {
    let (place, number) = (failure.place, failure.number + 1);
    let what = match failure.before {
        Some(before) => format!("  The first thing that fails is the step {before} > {place}, to number {number}:\n"),
        None => {
            format!("  The first thing that fails is number {number}, place {place} ({}):\n", kind_of(world, place))
        }
    };
    what + &failure.reasons.iter().map(|reason| wrapped(&reason.text, 15)).collect::<String>()
}

fn failure_json(failure: &Failure) -> Json {
    object! {
        "number": failure.number + 1, "place": failure.place, "step_from": failure.before,
        "reasons": reasons_json(&failure.reasons),
    }
}
