//! What a command answers: text and JSON for standard output, with an exit status.

use crate::explain;
use crate::json::{object, Json};
use crate::stop::Stop;
use std::io::{ErrorKind, Write};
use vrbolist::Refusal;

pub struct Answer {
    pub status: u8,
    pub text: String,
    pub json: Json,
}

impl Answer {
    /// A pass: the fields are added to the object.
    pub fn passed(text: String, base: Json, fields: Json) -> Answer {
        Answer { status: 0, text, json: base.with(object! { "passed": true }).with(fields) }
    }

    /// A refusal with its words, under a heading.
    pub fn refused(head: String, base: Json, refusal: Refusal, words: &[String]) -> Answer {
        let json = base.with(object! { "passed": false, "refusal": explain::json(refusal, words) });
        Answer { status: status(refusal), text: head + &explain::text(refusal, words), json }
    }
}

/// The exit status of a refusal is its number.
pub fn status(refusal: Refusal) -> u8 {
    u8::try_from(refusal.number).unwrap_or(u8::MAX)
}

/// Writes to standard output. A reader that went away is no error; a full disk is.
pub fn print(text: &str) -> Result<(), Stop> {
    let mut out = std::io::stdout().lock();
    match out.write_all(text.as_bytes()).and_then(|()| out.flush()) {
        Err(error) if error.kind() != ErrorKind::BrokenPipe => {
            Err(Stop::cannot_write(format!("standard output: {error}")))
        }
        _ => Ok(()),
    }
}

/// Writes to standard error; there is nowhere to tell that this failed.
pub fn complain(text: &str) {
    let _ = std::io::stderr().lock().write_all(text.as_bytes());
}
