//! Times of the questions on typical items, and of making questions.

use std::hint::black_box;
use std::time::Instant;

use make::certificate::{Certificate, LINK, SIGNER};
use make::crl::Crl;
use make::questions::Source;
use make::random::Random;
use make::table;
use make::world::{Plan, World, MOMENT};

/// The best mean of several rounds, in nanoseconds.
fn time(what: &str, rounds: u32, mut run: impl FnMut()) {
    let mut best = f64::MAX;
    for _ in 0..15 {
        let start = Instant::now();
        for _ in 0..rounds {
            run();
        }
        best = best.min(start.elapsed().as_nanos() as f64 / rounds as f64);
    }
    println!("{what:50} {best:10.1} ns");
}

fn chains(what: &str, world: &World, table: &[u8], target: u64) {
    let answer = plain::chain(&world.image, table, MOMENT, target);
    let what = format!("chain, {what}: number {}, length {}", answer.number, answer.length);
    time(&what, 1_000, || {
        black_box(plain::chain(black_box(&world.image), table, MOMENT, target));
    });
}

/// Asks for the first signer that has a chain, if one has.
fn chains_of_96(what: &str, world: &World, table: Vec<u8>) {
    let has_chain = |&target: &u64| plain::chain(&world.image, &table, MOMENT, target).number == 0;
    let signers = || world.places(SIGNER as u8).into_iter().map(|place| place as u64);
    let target = signers().find(has_chain).or(signers().next()).unwrap_or(0);
    chains(&format!("96 places {what}"), world, &table, target);
}

fn main() {
    for (name, role) in [("link", LINK), ("DS", SIGNER)] {
        let item = Certificate::typical(role).encode();
        let count = plain::walk(&item).count;
        time(&format!("walk, {name} of {} bytes, {count} elements", item.len()), 20_000, || {
            black_box(plain::walk(black_box(&item)));
        });
        time(&format!("certificate, {name}"), 20_000, || {
            black_box(plain::certificate(black_box(&item), role));
        });
    }
    let nulls = make::der::element(0x30, &[5, 0].repeat(4_095));
    time("walk, 4,096 elements", 500, || {
        black_box(plain::walk(black_box(&nulls)));
    });
    for entries in [0, 10, 600] {
        let item = Crl::typical(entries).encode();
        time(&format!("walk, CRL of {entries} entries"), 2_000, || {
            black_box(plain::walk(black_box(&item)));
        });
        time(&format!("CRL of {entries} entries"), 2_000, || {
            black_box(plain::crl(black_box(&item)));
        });
    }
    let mut random = Random::new(1);
    let few = Plan { anchors: 1, links: 2, signers: 1, crls: 1, wrong: 0, lists: false };
    let world = World::line(&mut random, few, false);
    chains("5 places, anchor, two links, DS", &world, &world.truth, 3);
    let plan = Plan { anchors: 4, links: 70, signers: 18, crls: 4, wrong: 0, lists: false };
    let alike = World::alike(&mut random, plan, false);
    chains_of_96("alike, table of ones", &alike, vec![1; 96 * 96]);
    let line = World::line(&mut random, plan, false);
    chains_of_96("in line, true table", &line, line.truth.clone());
    let mut scattered = table::scattered(&mut random, 96, 4);
    table::sign_crls(&mut random, &alike, &mut scattered, 100);
    chains_of_96("alike, 4 percent of ones", &alike, scattered);
    let mut made = 0usize;
    let start = Instant::now();
    for seed in 0..4 {
        let mut source = Source::new(seed);
        for _ in 0..50_000 {
            black_box(source.next());
            made += 1;
        }
    }
    println!("{:.0} questions made a second", made as f64 / start.elapsed().as_secs_f64());
}
