//! One cause for a signer that has no chain: the first condition that stands in the way.

use crate::reasons::World;

pub fn cause(world: &World<'_>, place: usize) -> String {
    if let Some(own) = world.unusable.get(place).and_then(|reasons| reasons.first()) {
        return own.text.clone();
    }
    let sources = world.sources(place);
    let to_it = sources.iter().filter(|source| source.to == place);
    let Some(nearest) = to_it.min_by_key(|source| source.own.len().saturating_add(source.step.len())) else {
        return "nothing could have led to it".to_string();
    };
    match nearest.own.iter().chain(&nearest.step).next() {
        Some(fault) => format!("from {}: {}", nearest.from, fault.text),
        None => format!("{} leads to it, but nothing leads to {}", nearest.from, nearest.from),
    }
}
