//! Compares the library with the plain reader, its two searches for chains with each other, every signer in one call with
//! single questions, and the anchors of a country with those of the index where its letters are true.
//!
//!     differ [--seed N] [--count N] [--seconds N]
//!
//! Asks the questions of the seed (1) until the count or the seconds are over,
//! or 200,000 where neither is given. Prints the first difference; exit status
//! 1 if there is one, 2 for arguments that are none.

#![forbid(unsafe_code)]

use std::process::ExitCode;
use std::time::{Duration, Instant};

use differ::{run, Library, Limits, Plain};

const COUNT: u64 = 200_000;

fn arguments() -> Option<(u64, Limits)> {
    let (mut seed, mut limits) = (1, Limits::default());
    let mut words = std::env::args().skip(1);
    while let Some(name) = words.next() {
        let number = words.next()?.parse().ok()?;
        match name.as_str() {
            "--seed" => seed = number,
            "--count" => limits.count = Some(number),
            "--seconds" => limits.time = Some(Duration::from_secs(number)),
            _ => return None,
        }
    }
    if limits.count.is_none() && limits.time.is_none() {
        limits.count = Some(COUNT);
    }
    Some((seed, limits))
}

fn main() -> ExitCode {
    let Some((seed, limits)) = arguments() else {
        eprintln!("usage: differ [--seed N] [--count N] [--seconds N]");
        return ExitCode::from(2);
    };
    let start = Instant::now();
    match run(&Library, &Plain, seed, limits, |_, _| {}) {
        Ok(count) => {
            println!("seed {seed}: {count} questions in {:.1} s, no difference", start.elapsed().as_secs_f64());
            ExitCode::SUCCESS
        }
        Err(difference) => {
            println!("first: the library, second: the plain reader, or the library by another way: its second search, its single questions, its index");
            println!("{difference}");
            ExitCode::from(1)
        }
    }
}
