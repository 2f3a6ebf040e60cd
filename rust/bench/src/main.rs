//! Times the library and the plain reader on the same questions, in one run.
//!
//! `bench`                     a table of all questions
//! `bench --growth`            how walk, certificate, CRL and chain grow
//! `bench --list [--growth]`   the names of the questions
//! `bench --list --worst`      those of the dearest, each with the instructions that it may cost
//! `bench --count NAME SIDE N` asks one question N times on one side (library or plain), for counting from outside
//! `bench --search WHAT SEED N` searches for a dear item or chain in N turns, and prints what it finds

#![forbid(unsafe_code)]

mod ask;
mod images;
mod inputs;
mod items;
mod search;
mod timing;
mod worst;

use ask::Asker;
use differ::{Plain, Reader};
use inputs::{GROWTH, QUESTIONS, WORST};

fn main() {
    let words: Vec<String> = std::env::args().skip(1).collect();
    let words: Vec<&str> = words.iter().map(String::as_str).collect();
    let good = match words[..] {
        [] => timing::table(QUESTIONS),
        ["--growth"] => timing::table(GROWTH),
        ["--list"] => list(QUESTIONS),
        ["--list", "--growth"] => list(GROWTH),
        ["--list", "--worst"] => bounds(),
        ["--count", name, side, number] => count(name, side, number),
        ["--search", what, seed, number] => match (seed.parse(), number.parse()) {
            (Ok(seed), Ok(number)) => search::search(what, seed, number),
            _ => false,
        },
        _ => false,
    };
    if !good {
        eprintln!(
            "bench [--growth] | --list [--growth|--worst] | --count NAME library|plain N | --search item|chain SEED N"
        );
        std::process::exit(1);
    }
}

fn list(names: &[&str]) -> bool {
    for name in names {
        println!("{name}");
    }
    true
}

fn bounds() -> bool {
    for (name, bound) in WORST {
        println!("{name}={bound}");
    }
    true
}

/// Asks one question on one side only.
fn count(name: &str, side: &str, number: &str) -> bool {
    let reader: &dyn Reader = match side {
        "library" => inputs::library(name),
        "plain" => &Plain,
        _ => return false,
    };
    let (Some(questions), Ok(number)) = (inputs::named(name), number.parse::<u64>()) else {
        return false;
    };
    let mut asker = Asker::new(questions);
    for _ in 0..number {
        asker.ask(reader);
    }
    true
}
