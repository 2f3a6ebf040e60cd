//! Times of both sides, in turns.

use std::time::Instant;

use differ::{Plain, Reader};

use crate::ask::Asker;
use crate::inputs;

const ROUNDS: usize = 25;
/// What a round of the plain side should take, in nanoseconds.
const ROUND: u64 = 2_000_000;

/// Prints question, nanoseconds of both sides, and their ratio. False if the sides do not answer alike.
pub fn table(names: &[&str]) -> bool {
    println!("{:24} {:>12} {:>12} {:>7}  passed", "question", "plain ns", "library ns", "ratio");
    for name in names {
        let Some(questions) = inputs::named(name) else {
            eprintln!("{name}: no such question");
            return false;
        };
        let mut asker = Asker::new(questions);
        let Some(told) = asker.agreed() else {
            eprintln!("{name}: the sides do not answer alike");
            return false;
        };
        let (library, plain) = times(&mut asker, inputs::library(name));
        println!("{name:24} {plain:12.1} {library:12.1} {:7.2}  {told}", library / plain);
    }
    true
}

/// The best round of each side, in nanoseconds for one repetition; the sides take turns.
fn times(asker: &mut Asker, reader: &dyn Reader) -> (f64, f64) {
    let once = round(asker, &Plain, 3).max(1.0);
    let repetitions = (ROUND as f64 / once).clamp(1.0, 100_000.0) as u64;
    let (mut library, mut plain) = (f64::MAX, f64::MAX);
    for _ in 0..ROUNDS {
        library = library.min(round(asker, reader, repetitions));
        plain = plain.min(round(asker, &Plain, repetitions));
    }
    (library, plain)
}

fn round(asker: &mut Asker, reader: &dyn Reader, repetitions: u64) -> f64 {
    let start = Instant::now();
    for _ in 0..repetitions {
        asker.ask(reader);
    }
    start.elapsed().as_nanos() as f64 / repetitions as f64
}
