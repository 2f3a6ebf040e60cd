//! `vrbolist tray`: replays a tray log, and adds records to one.

use super::Command;
use crate::answer::Answer;
use crate::args::{self, Given, Takes};
use crate::files;
use crate::json::{object, Json};
use crate::stop::{Stop, FAULTY};
use crate::text::{counted, day};
use crate::tray::{self, Fault, Record, Tray};
use std::ffi::OsStr;
use std::path::Path;

pub const COMMAND: Command = Command {
    name: "tray",
    help: "\
vrbolist tray LOG [--json]
vrbolist tray LOG --append [--open DAY] [--load DAY] [--burn UNIT|FIRST-LAST] .. [--json]

Replays a tray log, records of 8 bytes: a line for each tray that was opened, with its day, the day
of the image that was loaded last while it was open, and the units burnt; then a line for each
faulty record, with its number, its fields and the reason. Exit status 65 where one is faulty.

With --append the records of the options are added at the end of the log, in their order; a log
that is not there is begun. It is written whole or not at all. What is added is not judged.

Example:
  vrbolist tray night.log --append --open 20261115 --load 20261115 --burn 1-40
  vrbolist tray night.log
",
    takes: Takes { alone: &["LOG"], options: &["--open", "--load", "--burn"], switches: &["--append"] },
    run,
};

fn run(given: &Given) -> Result<Answer, Stop> {
    match given.has("--append") {
        true => append(given),
        false if given.options.is_empty() => replay(given.word(0)),
        false => Err(Stop::usage("--open, --load and --burn are for --append")),
    }
}

fn replay(path: &OsStr) -> Result<Answer, Stop> {
    let log = files::read_all(path)?;
    let head = format!("{}  {} bytes\n", files::shown(path), log.len());
    let base = object! { "command": "tray", "file": files::shown(path), "size": log.len() };
    let mut list = vec![0; log.len() / tray::RECORD];
    Ok(match vrbolist::replay(&log, &mut list) {
        Ok(faulty) => told(head, base, &log, faulty),
        Err(refusal) => Answer::refused(head, base, refusal, &[cut(&log)]),
    })
}

fn cut(log: &[u8]) -> String {
    let more = log.len() % tray::RECORD;
    format!("The log is not of whole records of 8 bytes: {} stand behind the last.", counted(more, "byte"))
}

fn told(head: String, base: Json, log: &[u8], faulty: &[u64]) -> Answer {
    let (trays, faults) = tray::told(log, faulty);
    let records = counted(log.len() / tray::RECORD, "record");
    let said = match faults.len() {
        0 => format!("PASSED   {records}, none faulty, {}\n", counted(trays.len(), "tray")),
        n => format!("FAULTY   {n} of {records}, {}\n", counted(trays.len(), "tray")),
    };
    let json = base.with(object! {
        "passed": faults.is_empty(), "records": log.len() / tray::RECORD, "faulty": faults.len(),
        "trays": trays.iter().map(tray_json).collect::<Vec<_>>(),
        "faults": faults.iter().map(fault_json).collect::<Vec<_>>(),
    });
    let status = if faults.is_empty() { 0 } else { FAULTY };
    Answer { status, text: head + &said + &tray_lines(&trays) + &fault_lines(&faults), json }
}

fn tray_lines(trays: &[Tray]) -> String {
    if trays.is_empty() {
        return String::new();
    }
    let line = |tray: &Tray| {
        let image = tray.image.map_or("none".to_string(), |image| day(image.into()));
        let number = counted(tray.units.len(), "unit");
        let units = format!("{number:<8}  {}", ranges(&tray.units));
        format!("{:>6}  {}  {:<10}  {}\n", tray.record, day(tray.day.into()), image, units.trim_end())
    };
    "record  tray        image       burnt\n".to_string() + &trays.iter().map(line).collect::<String>()
}

/// Units that follow one another as their ends: 1-3, 7.
fn ranges(units: &[u8]) -> String {
    let mut sorted = units.to_vec();
    sorted.sort_unstable();
    let mut parts: Vec<(u8, u8)> = Vec::new();
    for unit in sorted {
        match parts.last_mut() {
            Some((_, last)) if *last + 1 == unit => *last = unit,
            _ => parts.push((unit, unit)),
        }
    }
    let one = |(first, last): &(u8, u8)| if first == last { first.to_string() } else { format!("{first}-{last}") };
    parts.iter().map(one).collect::<Vec<_>>().join(", ")
}

fn fault_lines(faults: &[Fault]) -> String {
    if faults.is_empty() {
        return String::new();
    }
    let line = |fault: &Fault| {
        let Record { action, unit, padding, day } = fault.record;
        format!("{:>6}  {action:>6}  {unit:>4}  {padding:>5}  {day:>10}  {}\n", fault.number, fault.reason)
    };
    "record  action  unit  zeros         day  fault\n".to_string() + &faults.iter().map(line).collect::<String>()
}

fn tray_json(tray: &Tray) -> Json {
    let units: Vec<Json> = tray.units.iter().map(|&unit| unit.into()).collect();
    object! {
        "record": tray.record, "day": u64::from(tray.day), "image_day": tray.image.map(u64::from), "units": units,
    }
}

fn fault_json(fault: &Fault) -> Json {
    let Record { action, unit, padding, day } = fault.record;
    object! {
        "record": fault.number, "action": action, "unit": unit, "zeros": u64::from(padding), "day": u64::from(day),
        "reason": fault.reason.clone(),
    }
}

fn append(given: &Given) -> Result<Answer, Stop> {
    let path = given.word(0);
    if path == "-" {
        return Err(Stop::usage("--append wants a file, not standard input"));
    }
    let mut added = Vec::new();
    for (name, value) in &given.options {
        records(name, value, &mut added)?;
    }
    if added.is_empty() {
        return Err(Stop::usage("--append wants --open, --load or --burn behind it"));
    }
    let mut log = if Path::new(path).exists() { files::read_all(path)? } else { Vec::new() };
    let head = format!("{}  {} bytes\n", files::shown(path), log.len());
    let base = object! { "command": "tray", "file": files::shown(path), "size": log.len() };
    let mut list = vec![0; log.len() / tray::RECORD];
    if let Err(refusal) = vrbolist::replay(&log, &mut list) {
        return Ok(Answer::refused(head, base, refusal, &[cut(&log), "Nothing was added.".to_string()]));
    }
    let number = added.len();
    added.iter().for_each(|record| log.extend(record.bytes()));
    files::write(Path::new(path), &log, true)?;
    let all = log.len() / tray::RECORD;
    let said = format!("WRITTEN  {} added, {} in all\n", counted(number, "record"), counted(all, "record"));
    Ok(Answer::passed(head + &said, base, object! { "added": number, "records": all }))
}

/// The records of one option.
fn records(name: &str, value: &OsStr, added: &mut Vec<Record>) -> Result<(), Stop> {
    let whole = |action| {
        let number = args::number(value, "day YYYYMMDD")?;
        let day = u32::try_from(number).map_err(|_| Stop::usage(format!("{number} is too large for a day")))?;
        Ok(Record { action, unit: 0, padding: 0, day })
    };
    match name {
        "--open" => added.push(whole(tray::OPEN)?),
        "--load" => added.push(whole(tray::LOAD)?),
        _ => {
            let (first, last) = units(value)?;
            added.extend((first..=last).map(|unit| Record { action: tray::BURN, unit, padding: 0, day: 0 }));
        }
    }
    Ok(())
}

/// A unit, or the first and the last of some.
fn units(value: &OsStr) -> Result<(u8, u8), Stop> {
    let text = value.to_string_lossy();
    let (first, last) = text.split_once('-').unwrap_or((&text, &text));
    let unit = |word: &str| {
        let number = args::number(OsStr::new(word), "unit")?;
        u8::try_from(number).map_err(|_| Stop::usage(format!("{number} is too large for a unit")))
    };
    match (unit(first)?, unit(last)?) {
        (first, last) if first <= last => Ok((first, last)),
        (first, last) => Err(Stop::usage(format!("the units {first} to {last} are none"))),
    }
}
