//! `vrbolist days`: days from one day to another.

use super::Command;
use crate::answer::Answer;
use crate::args::{self, Given, Takes};
use crate::json::object;
use crate::stop::Stop;
use crate::text::day;

pub const COMMAND: Command = Command {
    name: "days",
    help: "\
vrbolist days A B [--json]

The number of days from day A to day B, below zero where B is earlier. Days are YYYYMMDD, of 1950 to
2099.

Example:
  vrbolist days 20240228 20240301
",
    takes: Takes { alone: &["A", "B"], options: &[], switches: &[] },
    run,
};

fn run(given: &Given) -> Result<Answer, Stop> {
    let first = args::number(given.word(0), "day YYYYMMDD")?;
    let second = args::number(given.word(1), "day YYYYMMDD")?;
    let base = object! { "command": "days", "first": first, "second": second };
    Ok(match vrbolist::day_difference(first, second) {
        Ok(days) => {
            let text = format!("{days}  days from {} to {}\n", day(first), day(second));
            Answer::passed(text, base, object! { "days": days })
        }
        Err(refusal) => Answer::refused(String::new(), base, refusal, &unreal(&[first, second])),
    })
}

/// A sentence for each number that the library takes for no day.
pub fn unreal(days: &[u64]) -> Vec<String> {
    let wrong = days.iter().filter(|day| vrbolist::day_difference(**day, **day).is_err());
    wrong.map(|day| format!("{day} is not a real day of 1950 to 2099.")).collect()
}
