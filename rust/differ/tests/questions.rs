//! The library against the plain reader, on questions from a fixed seed. A
//! program without a harness, so that it runs on the main thread.

#![forbid(unsafe_code)]

use std::collections::BTreeMap;
use std::time::Instant;

use differ::{kind, run, Library, Limits, Plain};

const SEED: u64 = 1;
const COUNT: u64 = 200_000;

fn main() {
    let start = Instant::now();
    let mut reached = BTreeMap::new();
    let limits = Limits { count: Some(COUNT), time: None };
    let asked = run(&Library, &Plain, SEED, limits, |question, answer| {
        *reached.entry((kind(question), answer.head().0)).or_insert(0u64) += 1;
    });
    match asked {
        Ok(count) => assert_eq!(count, COUNT),
        Err(difference) => {
            panic!("first: the library, second: the plain reader, or the library by another way\n{difference}")
        }
    }
    // What was compared is worth something only where passes and refusals are there.
    let wanted: [(&str, &[u64]); 20] = [
        ("walk", &[0, 2, 3]),
        ("integer", &[0, 1, 2, 8]),
        ("certificate", &[0, 1, 2, 4]),
        ("crl", &[0, 2, 4]),
        ("day difference", &[0, 1]),
        ("crl age", &[0, 1, 2, 4]),
        ("image", &[0, 5]),
        ("image for day", &[0, 1, 5, 6]),
        ("entry", &[0, 1, 5]),
        ("write", &[0, 1, 3, 9]),
        ("move to 2", &[0, 3, 5, 9]),
        ("move to 1", &[0, 5, 9]),
        ("room", &[0, 1, 5, 9]),
        ("letters", &[0, 5]),
        ("anchors", &[0, 1, 5]),
        ("anchors by index", &[0, 1, 5]),
        ("chain", &[0, 1, 5, 7]),
        ("proposal", &[0, 1, 5, 7]),
        ("signers", &[0, 1, 5, 9]),
        ("replay", &[0, 1, 9]),
    ];
    for (kind, numbers) in wanted {
        for &number in numbers {
            assert!(reached.contains_key(&(kind, number)), "no {kind} with number {number}: {reached:?}");
        }
    }
    println!("seed {SEED}: {COUNT} questions in {:.1} s, no difference", start.elapsed().as_secs_f64());
}
