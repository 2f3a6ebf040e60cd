//! Which search answers the question for a chain: the quick one, the plain one, or both.

use crate::stop::Stop;
use crate::text::printable;
use std::ffi::OsStr;
use vrbolist::Refusal;

/// The places of a chain, or why there is none.
pub type Told = Result<Vec<u8>, Refusal>;

#[derive(Clone, Copy)]
pub enum Engine {
    Queue,
    Rounds,
    Both,
}

impl Engine {
    pub fn named(word: &OsStr) -> Result<Engine, Stop> {
        let shown = word.to_string_lossy();
        let known = [Engine::Queue, Engine::Rounds, Engine::Both].into_iter().find(|engine| engine.name() == shown);
        known.ok_or_else(|| Stop::usage(format!("{} is no engine: queue, rounds or both is wanted", printable(&shown))))
    }

    pub fn name(self) -> &'static str {
        match self {
            Engine::Queue => "queue",
            Engine::Rounds => "rounds",
            Engine::Both => "both",
        }
    }

    /// What it answers; a stop where both were asked and differ.
    pub fn chain(self, image: &[u8], table: &[u8], at: u64, target: u64) -> Result<Told, Stop> {
        let queue = || vrbolist::chain(image, table, at, target);
        let rounds = || vrbolist::chain_by_rounds(image, table, at, target);
        match self {
            Engine::Queue => Ok(queue()),
            Engine::Rounds => Ok(rounds()),
            Engine::Both => agreed(target, queue(), rounds()),
        }
    }
}

/// The bytes that the records of so many places take, for as many as an image can have.
const ROOM: usize = 96 * vrbolist::RECORD;

impl Engine {
    /// What it answers for each of these places; the quick search is asked for all of them in one call.
    pub fn every(self, image: &[u8], table: &[u8], at: u64, targets: &[u64]) -> Result<Vec<Told>, Stop> {
        let rounds = |target: &u64| vrbolist::chain_by_rounds(image, table, at, *target);
        if matches!(self, Engine::Rounds) {
            return Ok(targets.iter().map(rounds).collect());
        }
        let mut out = vec![0; ROOM];
        let records = vrbolist::all_signers(image, table, at, &mut out);
        let queue = |target: &u64| match records {
            Ok(records) => recorded(records, *target).unwrap_or_else(|| vrbolist::chain(image, table, at, *target)),
            Err(refusal) => Err(refusal),
        };
        match self {
            Engine::Both => targets.iter().map(|target| agreed(*target, queue(target), rounds(target))).collect(),
            _ => Ok(targets.iter().map(queue).collect()),
        }
    }
}

/// What the record of a place tells; nothing where the place is not there.
fn recorded(records: &[u8], target: u64) -> Option<Told> {
    let record = records.chunks_exact(vrbolist::RECORD).nth(usize::try_from(target).ok()?)?;
    let (length, slots) = record.split_first()?;
    match length {
        0 => Some(Err(Refusal { number: 7, detail: 0 })),
        _ => slots.get(..usize::from(*length)).map(|places| Ok(places.to_vec())),
    }
}

fn agreed(target: u64, queue: Told, rounds: Told) -> Result<Told, Stop> {
    if queue == rounds {
        return Ok(queue);
    }
    Err(Stop::differ(format!(
        "the two searches differ for signer {target}: queue says {}, rounds says {}; one of them is at fault",
        shown(&queue),
        shown(&rounds)
    )))
}

fn shown(told: &Told) -> String {
    match told {
        Ok(chain) => format!("chain {}", chain.iter().map(u8::to_string).collect::<Vec<_>>().join(" > ")),
        Err(refusal) => format!("refusal {}, detail {}", refusal.number, refusal.detail),
    }
}

#[cfg(test)]
mod tests {
    use super::*;

    #[test]
    fn a_difference_is_told() {
        let none = Refusal { number: 7, detail: 0 };
        assert!(agreed(3, Ok(vec![0, 2, 3]), Ok(vec![0, 2, 3])).is_ok_and(|told| told == Ok(vec![0, 2, 3])));
        assert!(agreed(3, Err(none), Err(none)).is_ok_and(|told| told == Err(none)));
        for (queue, rounds, words) in [
            (Ok(vec![0, 2, 3]), Ok(vec![1, 2, 3]), "queue says chain 0 > 2 > 3, rounds says chain 1 > 2 > 3"),
            (Ok(vec![0, 3]), Err(none), "queue says chain 0 > 3, rounds says refusal 7, detail 0"),
            (Err(none), Ok(vec![0, 3]), "queue says refusal 7, detail 0, rounds says chain 0 > 3"),
            (Err(none), Err(Refusal { number: 5, detail: 1 }), "rounds says refusal 5, detail 1"),
        ] {
            let stop = agreed(3, queue, rounds).err().expect("a difference");
            assert_eq!(stop.status, 70);
            assert!(stop.message.contains("signer 3") && stop.message.contains(words), "{}", stop.message);
        }
    }
}
