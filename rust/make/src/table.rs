//! Verdict tables.

use crate::random::Random;
use crate::world::{World, ANCHOR, CRL, LINK, SIGNER};

/// A table for a world, of some form; sometimes none at all.
pub fn varied(random: &mut Random, world: &World) -> Vec<u8> {
    let n = world.entries();
    // Where names and keys differ, most tables follow them.
    let form = if world.alike || random.percent(30) { random.below(10) } else { random.below(4) };
    let mut table = match form {
        0 => vec![1; n * n],
        1 => world.truth.clone(),
        2 => {
            let mut table = world.truth.clone();
            put(random, &mut table, 1);
            table
        }
        3 => {
            let mut table = world.truth.clone();
            put(random, &mut table, 0);
            table
        }
        4 => line(random, world),
        5 | 6 => layers(random, world),
        7 => loops(random, world),
        _ => {
            let percent = *random.pick(&[1, 3, 10, 30, 60]);
            scattered(random, n, percent)
        }
    };
    if random.percent(85) {
        let percent = *random.pick(&[100, 100, 50]);
        sign_crls(random, world, &mut table, percent);
    }
    if random.percent(4) {
        junk(random, &mut table);
    }
    table
}

/// Verdict 1 in this many percent of all places.
pub fn scattered(random: &mut Random, n: usize, percent: usize) -> Vec<u8> {
    let limit = (percent * 256 / 100) as u8;
    let mut table = random.octets(n * n);
    for verdict in &mut table {
        *verdict = (*verdict < limit) as u8;
    }
    table
}

/// Puts this verdict into one of ten places.
fn put(random: &mut Random, table: &mut [u8], verdict: u8) {
    for place in table {
        if random.percent(10) {
            *place = verdict;
        }
    }
}

/// One line from an anchor over all links to a signer.
pub fn line(random: &mut Random, world: &World) -> Vec<u8> {
    let n = world.entries();
    let mut table = vec![0; n * n];
    let mut links = world.places(LINK);
    random.shuffle(&mut links);
    links.truncate(random.between(0, links.len()));
    let mut before = world.places(ANCHOR);
    for link in links {
        for signer in before {
            table[signer * n + link] = 1;
        }
        before = vec![link];
    }
    for signed in world.places(SIGNER) {
        for &signer in &before {
            table[signer * n + signed] = 1;
        }
    }
    table
}

/// Links in layers, each layer signing the next: many chains of one length.
pub fn layers(random: &mut Random, world: &World) -> Vec<u8> {
    let n = world.entries();
    let number = random.between(1, 6);
    let percent = *random.pick(&[20, 50, 100]);
    let layer: Vec<usize> = world
        .kinds
        .iter()
        .map(|&kind| match kind {
            ANCHOR => 0,
            LINK => 1 + random.below(number),
            SIGNER => number + 1,
            _ => usize::MAX,
        })
        .collect();
    let mut table = vec![0; n * n];
    for row in 0..n {
        for column in 0..n {
            let next = layer[row] != usize::MAX && layer[row] + 1 == layer[column];
            if next && random.percent(percent) {
                table[row * n + column] = 1;
            }
        }
    }
    table
}

/// Links that sign each other and themselves, with few ways in and out.
pub fn loops(random: &mut Random, world: &World) -> Vec<u8> {
    let n = world.entries();
    let mut table = vec![0; n * n];
    let links = world.places(LINK);
    for &row in &links {
        table[row * n + row] = 1;
        for _ in 0..2 {
            let column = *random.pick(&links);
            table[row * n + column] = 1;
            table[column * n + row] = 1;
        }
    }
    for (rows, columns) in [(world.places(ANCHOR), &links), (links.clone(), &world.places(SIGNER))] {
        for row in rows {
            for &column in columns {
                if random.percent(15) {
                    table[row * n + column] = 1;
                }
            }
        }
    }
    table
}

/// Lets anchors sign CRLs.
pub fn sign_crls(random: &mut Random, world: &World, table: &mut [u8], percent: usize) {
    let n = world.entries();
    for anchor in world.places(ANCHOR) {
        for crl in world.places(CRL) {
            if random.percent(percent) {
                table[anchor * n + crl] = 1;
            }
        }
    }
}

/// Makes a table that is none: another byte, or another length.
pub fn junk(random: &mut Random, table: &mut Vec<u8>) {
    match random.below(4) {
        0 => table.push(0),
        1 => {
            table.pop();
        }
        2 if !table.is_empty() => {
            let at = *random.pick(&[0, table.len() - 1, table.len() / 2]);
            table[at] = *random.pick(&[2, 3, 128, 254, 255]);
        }
        _ => {
            if !table.is_empty() {
                let at = random.below(table.len());
                table[at] = random.between(2, 255) as u8;
            }
        }
    }
}
