//! Proposed chains.

use crate::random::Random;
use crate::world::{World, ANCHOR, LINK};

/// A proposal: mostly a way that verdicts lead, now and then changed.
pub fn varied(random: &mut Random, world: &World, table: &[u8], target: u64) -> Vec<u8> {
    let mut places = way(random, world, table, target);
    let n = world.entries();
    let length = places.len();
    match random.below(20) {
        0 => places.reverse(),
        1 => places.swap(random.below(length), random.below(length)),
        2 => {
            places.pop();
        }
        3 => {
            places.remove(random.below(length));
        }
        4 => places[random.below(length)] = random.below(n.max(1)) as u8,
        5 => places[random.below(length)] = *random.pick(&[n as u8, n as u8 + 1, 95, 96, 128, 254, 255]),
        6 => {
            let place = places[random.below(length)];
            places.insert(random.below(length), place);
        }
        7 => places = vec![places[0]; *random.pick(&[0, 1, 2, 95, 96, 97, 255, 300])],
        8 => {
            let length = random.below(5);
            places = (0..length).map(|_| random.below(n.max(1)) as u8).collect();
        }
        _ => {}
    }
    places
}

/// A way back from the target over links to an anchor, by verdicts alone; where links signed each other it may go round.
fn way(random: &mut Random, world: &World, table: &[u8], target: u64) -> Vec<u8> {
    let n = world.entries();
    let links = *random.pick(&[0, 1, 2, 3, 8, 94]);
    let mut places = vec![target as u8];
    let mut at = target as usize;
    while places.len() < 96 {
        let from = |kind: u8| -> Vec<usize> {
            let signed =
                |u: &usize| u.checked_mul(n).and_then(|row| row.checked_add(at)).and_then(|pair| table.get(pair));
            world.places(kind).into_iter().filter(|u| signed(u) == Some(&1)).collect()
        };
        let (anchors, more) = (from(ANCHOR), from(LINK));
        if !anchors.is_empty() && (more.is_empty() || places.len() > links) {
            places.push(*random.pick(&anchors) as u8);
            break;
        }
        if more.is_empty() {
            break;
        }
        at = *random.pick(&more);
        places.push(at as u8);
    }
    places.reverse();
    places
}
