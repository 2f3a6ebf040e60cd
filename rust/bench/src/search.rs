//! A search for questions that cost much: shapes are changed at random, and what takes longer is kept.

use std::time::Instant;

use differ::Library;
use make::questions::Question;
use make::random::Random;

use crate::ask::Asker;
use crate::worst::{Pack, Shape};

/// Turns without anything dearer, after which a search starts again.
const PATIENCE: usize = 150;

/// Prints what it finds, each time it is dearer than all before. False where there is no such search.
pub fn search(what: &str, seed: u64, turns: usize) -> bool {
    let mut random = Random::new(seed);
    match what {
        "item" => climb(&mut random, turns, Shape::any, Shape::change, Shape::asked),
        "chain" => climb(&mut random, turns, Pack::any, Pack::change, Pack::asked),
        _ => return false,
    }
    true
}

fn climb<T: Clone + std::fmt::Debug>(
    random: &mut Random,
    turns: usize,
    any: impl Fn(&mut Random) -> T,
    change: impl Fn(&mut T, &mut Random),
    asked: impl Fn(&T) -> Vec<Question>,
) {
    let mut dearest = 0;
    let (mut here, mut cost, mut idle) = (any(random), 0, 0);
    for _ in 0..turns {
        if idle > PATIENCE {
            (here, cost, idle) = (any(random), 0, 0);
        }
        let mut other = here.clone();
        for _ in 0..random.between(1, 3) {
            change(&mut other, random);
        }
        let other_cost = nanoseconds(asked(&other));
        idle += 1;
        // By a twentieth: less may be chance.
        if other_cost > cost + cost / 20 {
            (here, cost, idle) = (other, other_cost, 0);
            if cost > dearest {
                dearest = cost;
                println!("{cost} ns: {here:?}");
            }
        }
    }
}

/// The best of three.
fn nanoseconds(questions: Vec<Question>) -> u64 {
    let mut asker = Asker::new(questions);
    let time = |_| {
        let start = Instant::now();
        asker.ask(&Library);
        start.elapsed().as_nanos() as u64
    };
    (0..3).map(time).min().unwrap_or(0)
}
