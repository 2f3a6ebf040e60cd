//! The words after a command: what stands alone, options with a value, and switches.

use crate::stop::Stop;
use crate::text::printable;
use std::ffi::{OsStr, OsString};

/// What a command takes.
pub struct Takes {
    pub alone: &'static [&'static str],
    pub options: &'static [&'static str],
    pub switches: &'static [&'static str],
}

/// What it was given. Options keep their order.
#[derive(Default)]
pub struct Given {
    pub alone: Vec<OsString>,
    pub options: Vec<(&'static str, OsString)>,
    pub switches: Vec<&'static str>,
}

const ALWAYS: &[&str] = &["--json", "--help"];

impl Given {
    pub fn has(&self, switch: &str) -> bool {
        self.switches.contains(&switch)
    }

    /// The word at a place; the count was checked before.
    pub fn word(&self, place: usize) -> &OsStr {
        self.alone.get(place).map(OsString::as_os_str).unwrap_or_default()
    }

    /// An option that may be given once.
    pub fn option(&self, name: &str) -> Result<Option<&OsStr>, Stop> {
        let mut found = self.options.iter().filter(|(given, _)| *given == name);
        let first = found.next().map(|(_, value)| value.as_os_str());
        match found.next() {
            Some(_) => Err(Stop::usage(format!("{name} is given twice: give it once"))),
            None => Ok(first),
        }
    }

    /// An option that must be given once.
    pub fn wanted(&self, name: &str, what: &str) -> Result<&OsStr, Stop> {
        self.option(name)?.ok_or_else(|| Stop::usage(format!("{name} {what} is missing")))
    }
}

pub fn read(words: &[OsString], takes: &Takes) -> Result<Given, Stop> {
    let mut given = Given::default();
    let mut rest = words.iter();
    while let Some(word) = rest.next() {
        let shown = word.to_string_lossy();
        if shown == "--" {
            given.alone.extend(rest.by_ref().cloned());
        } else if shown == "-h" {
            given.switches.push("--help");
        } else if !shown.starts_with('-') || shown == "-" {
            given.alone.push(word.clone());
        } else if let Some(name) = known(&shown, takes.switches).or_else(|| known(&shown, ALWAYS)) {
            given.switches.push(name);
        } else if let Some(name) = known(&shown, takes.options) {
            let value = rest.next().ok_or_else(|| Stop::usage(format!("{name} wants a value behind it")))?;
            given.options.push((name, value.clone()));
        } else {
            given.options.push(joined(&shown, takes)?);
        }
    }
    Ok(given)
}

fn known(word: &str, names: &[&'static str]) -> Option<&'static str> {
    names.iter().copied().find(|name| *name == word)
}

/// `--name=value`.
fn joined(word: &str, takes: &Takes) -> Result<(&'static str, OsString), Stop> {
    let found = word.split_once('=').and_then(|(name, value)| Some((known(name, takes.options)?, value.into())));
    found.ok_or_else(|| Stop::usage(format!("there is no option {}", printable(word))))
}

/// The words that stand alone are as many as the command takes.
pub fn counted(given: &Given, takes: &Takes) -> Result<(), Stop> {
    match (given.alone.get(takes.alone.len()), takes.alone.get(given.alone.len())) {
        (Some(word), _) => Err(Stop::usage(format!("{} is one word too many", printable(&word.to_string_lossy())))),
        (None, Some(name)) => Err(Stop::usage(format!("{name} is missing"))),
        _ => Ok(()),
    }
}

/// A number of digits alone; whether it is a real day or place is for the library.
pub fn number(word: &OsStr, what: &str) -> Result<u64, Stop> {
    let shown = word.to_string_lossy();
    let digits = !shown.is_empty() && shown.bytes().all(|b| b.is_ascii_digit());
    let value = if digits { shown.parse().ok() } else { None };
    value.ok_or_else(|| Stop::usage(format!("{} is no {what}: digits alone are wanted", printable(&shown))))
}
