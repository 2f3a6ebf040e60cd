//! `vrbolist chain`: the chain to a signer, or why there is none.

use super::days::unreal;
use super::image::words as image_words;
use super::Command;
use crate::answer::Answer;
use crate::args::{self, Given, Takes};
use crate::cause::cause;
use crate::engine::{Engine, Told};
use crate::explain;
use crate::files;
use crate::json::{object, Json};
use crate::names;
use crate::places::{self, kind_name};
use crate::reasons::{Reason, Source, World};
use crate::stop::Stop;
use crate::table;
use crate::text::{clip, counted, hex, moment, wrapped, WIDTH};
use vrbolist::Refusal;

pub const COMMAND: Command = Command {
    name: "chain",
    help: "\
vrbolist chain IMAGE --table T --at YYYYMMDDHHMMSS --signer PLACE|all
               [--engine queue|rounds|both] [--json]

Asks for the best chain from an enabled anchor to the document signer at PLACE, or to each signer.
Where there is none it says which condition fails, for the signer and for what could have led to it.
With all it asks once for all of them and says a line for each, then one cause for each without.

T says who signed whom, as the chip found it, for the n items of the image: n lines of n digits 0 or
1, or n x n bytes 0 or 1. Row u, column v is 1 where the key of u checks the signature of v.
With all the exit status is 0 where every signer has a chain, else 7.

Two searches find the same chains, as is proved. The engine queue is the quick one, which is asked
where none is named; rounds is a plain one, for audits. With both each is asked, and if they ever
differ the program says so, with exit status 70.

Example:
  vrbolist pack xo.image --day 20261115 --anchor tests/data/made/xo-anchor-1.der \\
    --signer tests/data/made/xo-signer-1.der --crl tests/data/made/xo-crl.der --force
  printf '111\\n000\\n000\\n' > xo.table
  vrbolist chain xo.image --table xo.table --at 20261115120000 --signer 1
",
    takes: Takes { alone: &["IMAGE"], options: &["--table", "--at", "--signer", "--engine"], switches: &[] },
    run,
};

/// What is asked of the library, but for the place.
pub struct Question<'a> {
    pub image: &'a [u8],
    pub table: &'a [u8],
    pub at: u64,
    pub engine: Engine,
}

impl Question<'_> {
    /// What the library answers for each of these places, in one call where all were asked for.
    fn told(&self, targets: &[u64], all: bool) -> Result<Vec<Told>, Stop> {
        if all {
            return self.engine.every(self.image, self.table, self.at, targets);
        }
        targets.iter().map(|target| self.engine.chain(self.image, self.table, self.at, *target)).collect()
    }
}

fn run(given: &Given) -> Result<Answer, Stop> {
    let signer = given.wanted("--signer", "PLACE|all")?;
    let asked = if signer == "all" { None } else { Some(args::number(signer, "place (a number or all)")?) };
    let at = args::number(given.wanted("--at", "YYYYMMDDHHMMSS")?, "moment YYYYMMDDHHMMSS")?;
    let named = given.option("--engine")?.map(Engine::named).transpose()?;
    let table_path = given.wanted("--table", "T")?;
    let image = files::read(given.word(0))?;
    let table = table::read(files::read(table_path)?)?;
    let base = object! { "command": "chain", "file": files::shown(given.word(0)), "at": at };
    let base = match named {
        Some(engine) => base.with(object! { "engine": engine.name() }),
        None => base,
    };
    let entries = match vrbolist::image(&image) {
        Ok(told) => told.entries,
        Err(refusal) => return Ok(Answer::refused(String::new(), base, refusal, &image_words(refusal, &image, None))),
    };
    let world = World::new(places::all(&image, entries), &table, at);
    let question = Question { image: &image, table: &table, at, engine: named.unwrap_or(Engine::Queue) };
    answer(base, &question, &world, asked)
}

/// The signers asked for; where there is none, a place that is not there, so that the library refuses it.
fn targets(world: &World<'_>, asked: Option<u64>) -> Vec<u64> {
    let signers = world.places.iter().filter(|place| place.entry.kind == 3).map(|place| place.number);
    let mut targets: Vec<u64> = asked.map_or_else(|| signers.collect(), |place| vec![place]);
    if targets.is_empty() {
        targets.push(world.places.len() as u64);
    }
    targets
}

fn answer(base: Json, question: &Question<'_>, world: &World<'_>, asked: Option<u64>) -> Result<Answer, Stop> {
    let mut text = format!("At {} UTC\n", moment(question.at));
    let mut each = Vec::new();
    let mut without = Vec::new();
    let targets = targets(world, asked);
    for (target, told) in targets.iter().copied().zip(question.told(&targets, asked.is_none())?) {
        match told {
            Err(refusal) if refusal.number != 7 => {
                return Ok(Answer::refused(String::new(), base, refusal, &arguments(question, world, target, asked)))
            }
            told => {
                without.extend(told.is_err().then_some(target));
                let line = head(target, &told);
                let (said, json) = one(world, target, told);
                text.push_str(if asked.is_none() { &line } else { &said });
                each.push(json);
            }
        }
    }
    if asked.is_none() {
        text.push_str(&all_said(world, each.len(), &without));
    }
    if matches!(question.engine, Engine::Both) {
        text.push_str("Both searches say so.\n");
    }
    let json = base.with(object! { "passed": without.is_empty(), "signers": each });
    Ok(Answer { status: if without.is_empty() { 0 } else { 7 }, text, json })
}

/// How many signers have a chain, and for each that has none one cause.
fn all_said(world: &World<'_>, count: usize, without: &[u64]) -> String {
    let with = count.saturating_sub(without.len());
    let mut text = format!("{with} of {} have a chain\n", counted(count, "signer"));
    for target in without {
        let place = usize::try_from(*target).unwrap_or(usize::MAX);
        text.push_str(&format!("signer {target} has none:\n{}", wrapped(&cause(world, place), 2)));
    }
    text
}

/// The line of one signer.
fn head(target: u64, told: &Told) -> String {
    match told {
        Ok(chain) => {
            let shown: Vec<String> = chain.iter().map(u8::to_string).collect();
            format!("signer {target}  PASSED   chain {}\n", shown.join(" > "))
        }
        Err(refusal) => {
            let name = explain::name(*refusal);
            format!("signer {target}  REFUSED  {}, detail {}: {name}\n", refusal.number, refusal.detail)
        }
    }
}

/// Which arguments are out of their range.
pub fn arguments(question: &Question<'_>, world: &World<'_>, target: u64, asked: Option<u64>) -> Vec<String> {
    let count = world.places.len();
    let mut out = table_and_moment(question.table, question.at, count as u64);
    let kind = world.places.iter().find(|place| place.number == target).map(|place| place.entry.kind);
    match (kind, asked) {
        (None, None) => out.push("The image has no document signer.".to_string()),
        (None, _) => out.push(format!("There is no place {target}: the image has {count} places.")),
        (Some(3), _) => (),
        (Some(kind), _) => out.push(format!("Place {target} is no document signer: its kind is {}.", kind_name(kind))),
    }
    out
}

/// What is wrong with a table for so many places, and with a moment.
pub fn table_and_moment(table: &[u8], at: u64, count: u64) -> Vec<String> {
    let mut out = Vec::new();
    let wanted = count.saturating_mul(count);
    if table.len() as u64 != wanted {
        out.push(format!(
            "The table has {} verdicts; the image has {count} places, so {wanted} are wanted.",
            table.len()
        ));
    }
    if table.iter().any(|verdict| *verdict > 1) {
        out.push("The table has a verdict that is neither 0 nor 1.".to_string());
    }
    let clock = at % 1_000_000;
    out.extend(unreal(&[at / 1_000_000]));
    if clock / 10_000 > 23 || clock / 100 % 100 > 59 || clock % 100 > 59 {
        out.push(format!("{clock:06} is no time HHMMSS of a day."));
    }
    out
}

/// Text and JSON for one signer.
fn one(world: &World<'_>, target: u64, told: Told) -> (String, Json) {
    let head = head(target, &told);
    match told {
        Ok(chain) => {
            let links: Vec<usize> = chain.iter().map(|place| usize::from(*place)).collect();
            let lines: String = links.iter().map(|place| certificate_lines(world, *place)).collect();
            let json: Vec<Json> = links.iter().map(|place| certificate_json(world, *place)).collect();
            (head + &lines, object! { "signer": target, "passed": true, "chain": json })
        }
        Err(refusal) => none(world, target, refusal, head),
    }
}

fn subject_and_key(world: &World<'_>, place: usize) -> (String, Option<String>) {
    let told = world.places.get(place).and_then(|place| place.certificate());
    let subject = told.map_or("(does not pass its profile)".to_string(), |told| names::name(told.subject));
    (subject, told.and_then(|told| told.subject_key_id).map(hex))
}

pub fn kind_of(world: &World<'_>, place: usize) -> &'static str {
    world.places.get(place).map_or("unknown", |place| kind_name(place.entry.kind))
}

pub fn certificate_lines(world: &World<'_>, place: usize) -> String {
    let (subject, key) = subject_and_key(world, place);
    let first = format!("  {place:>3}  {:<6}  {subject}", kind_of(world, place));
    let key = key.unwrap_or_else(|| "without identifier".to_string());
    format!("{}\n               key {}\n", clip(&first, WIDTH), clip(&key, WIDTH - 19))
}

pub fn certificate_json(world: &World<'_>, place: usize) -> Json {
    let (subject, key) = subject_and_key(world, place);
    object! { "place": place, "kind": kind_of(world, place), "subject": subject, "subject_key_id": key }
}

fn none(world: &World<'_>, target: u64, refusal: Refusal, head: String) -> (String, Json) {
    let place = usize::try_from(target).unwrap_or(usize::MAX);
    let own = world.unusable.get(place).cloned().unwrap_or_default();
    let sources = world.sources(place);
    let (subject, _) = subject_and_key(world, place);
    let mut text = head + &clip(&format!("  {place:>3}  signer  {subject}"), WIDTH) + "\n";
    text.push_str(&signer_text(&own));
    text.push_str(if sources.is_empty() {
        "  Nothing could have led to it.\n"
    } else {
        "  What could have led to it:\n"
    });
    sources.iter().for_each(|source| text.push_str(&source_text(world, source)));
    let json = object! {
        "signer": target, "passed": false, "refusal": explain::json(refusal, &[]), "reasons": reasons_json(&own),
        "sources": sources.iter().map(|source| source_json(world, source)).collect::<Vec<_>>(),
    };
    (text, json)
}

fn signer_text(reasons: &[Reason]) -> String {
    match reasons {
        [] => wrapped("nothing fails at the signer itself", 15),
        _ => reasons.iter().map(|reason| wrapped(&reason.text, 15)).collect(),
    }
}

fn source_text(world: &World<'_>, source: &Source) -> String {
    let head = format!("  {:>3}  {:<6}  to {}", source.from, kind_of(world, source.from), source.to);
    let faults: String = source.own.iter().chain(&source.step).map(|reason| wrapped(&reason.text, 15)).collect();
    match faults.is_empty() {
        true => head + ": nothing fails here\n",
        false => head + "\n" + &faults,
    }
}

pub fn reasons_json(reasons: &[Reason]) -> Vec<Json> {
    reasons.iter().map(|reason| object! { "code": reason.code, "words": reason.text.as_str() }).collect()
}

fn source_json(world: &World<'_>, source: &Source) -> Json {
    let mut reasons = reasons_json(&source.own);
    reasons.extend(reasons_json(&source.step));
    object! { "from": source.from, "kind": kind_of(world, source.from), "to": source.to, "reasons": reasons }
}
