//! The reasons agree with the library: where nothing fails there is a chain, and where something fails on every way there
//! is none.

use super::World;
use crate::places;
use make::questions::{Question, Source};

/// A chain at which nothing fails.
fn nothing_fails(world: &World<'_>, signer: usize) -> bool {
    let anchors = |source: &super::Source| world.places[source.from].entry.kind == 1;
    let leads = |source: &super::Source| anchors(source) && source.own.is_empty() && source.step.is_empty();
    world.unusable[signer].is_empty() && world.sources(signer).iter().any(leads)
}

#[test]
fn failures_agree_with_the_library() {
    let mut source = Source::new(6);
    let mut seen = [0; 2];
    while seen[0] + seen[1] < 200 {
        let Question::Proposal { image, table, moment, target, places } = source.next() else { continue };
        let told = vrbolist::proposal(&image, &table, moment, target, &places);
        if told.is_err_and(|refusal| refusal.number != 7) {
            continue;
        }
        let entries = vrbolist::image(&image).unwrap().entries;
        let world = World::new(places::all(&image, entries), &table, moment);
        let chain: Vec<usize> = places.iter().map(|place| usize::from(*place)).collect();
        let found = world.first_failure(&chain, target as usize);
        assert_eq!(found.is_none(), told.is_ok(), "places {places:?} to {target} at {moment}");
        assert!(found.map_or(true, |failure| chain[failure.number] == failure.place && !failure.reasons.is_empty()));
        seen[usize::from(told.is_ok())] += 1;
    }
    assert!(seen[0] > 20 && seen[1] > 20, "{seen:?}");
}

#[test]
fn reasons_agree_with_the_library() {
    let mut source = Source::new(5);
    let mut seen = [0; 2];
    while seen[0] + seen[1] < 600 {
        let Question::Chain { image, table, moment, target } = source.next() else { continue };
        let told = vrbolist::chain(&image, &table, moment, target);
        if told.as_ref().is_err_and(|refusal| refusal.number != 7) {
            continue;
        }
        let entries = vrbolist::image(&image).unwrap().entries;
        let world = World::new(places::all(&image, entries), &table, moment);
        assert_eq!(nothing_fails(&world, target as usize), told.is_ok(), "place {target} at {moment}");
        seen[usize::from(told.is_ok())] += 1;
    }
    assert!(seen[0] > 100 && seen[1] > 100, "{seen:?}");
}
