//! `vrbolist age`: how old a CRL is on a day.

use super::days::unreal;
use super::Command;
use crate::answer::Answer;
use crate::args::{self, Given, Takes};
use crate::explain::{self, Judged};
use crate::files::{self, Item};
use crate::json::object;
use crate::stop::Stop;
use crate::text::{day, moment};
use vrbolist::Refusal;

pub const COMMAND: Command = Command {
    name: "age",
    help: "\
vrbolist age CRL DAY [--json]

The number of days from the this-update day of a CRL to a day YYYYMMDD. CRL is DER or PEM.

Example:
  vrbolist age tests/data/made/ut-crl-yesterday.der 20261115
",
    takes: Takes { alone: &["CRL", "DAY"], options: &[], switches: &[] },
    run,
};

fn run(given: &Given) -> Result<Answer, Stop> {
    let wanted = args::number(given.word(1), "day YYYYMMDD")?;
    let item = files::read_item(given.word(0))?;
    let base = object! { "command": "age", "file": files::shown(given.word(0)), "day": wanted };
    Ok(match vrbolist::crl_age(&item.bytes, wanted) {
        Ok(days) => {
            let update = vrbolist::crl(&item.bytes).map(|crl| crl.this_update).unwrap_or_default();
            let text = format!("{days}  days from this update, {} UTC, to {}\n", moment(update), day(wanted));
            Answer::passed(text, base, object! { "days": days, "this_update": update })
        }
        Err(refusal) => Answer::refused(String::new(), base, refusal, &words(refusal, &item, wanted)),
    })
}

fn words(refusal: Refusal, item: &Item, wanted: u64) -> Vec<String> {
    if refusal.number != 1 {
        return explain::of_item(Judged::Crl, refusal, item);
    }
    let mut words = unreal(&[wanted]);
    if words.is_empty() {
        words.push("This update of the CRL is after 2099.".to_string());
    }
    words
}
