//! Every signer of an image in one call: each item is opened once, and one search
//! from all anchors serves all signers.

use crate::certificate::Role;
use crate::chain::{asked, each, Places, Question};
use crate::image::{Open, PLACES, SIGNER};
use crate::refusal::Refusal;

/// Length and slots of one place.
const RECORD: usize = 97;

/// The answer: how many bytes the records take.
#[derive(Clone, Copy, Debug, PartialEq, Eq)]
pub struct Signers {
    pub number: u64,
    pub detail: u64,
    pub length: u64,
}

/// Writes a record for each place: the length of the best chain to it, then its
/// slots; 0 and 255s where there is none. Refusals in order: 5, 1, 9.
pub fn all_signers(image: &[u8], table: &[u8], moment: u64, out: &mut [u8]) -> Signers {
    let refused = |Refusal { number, detail }| Signers { number, detail, length: 0 };
    let open = match asked(image, table, moment) {
        Ok(open) => open,
        Err(refusal) => return refused(refusal),
    };
    let length = RECORD * open.entries;
    let Some(records) = out.get_mut(..length) else {
        return refused(Refusal::OUTPUT);
    };
    let signers = signers(&open);
    let found = search(&mut Question::new(open, table, moment), signers);
    records.fill(255);
    for (place, record) in records.chunks_exact_mut(RECORD).enumerate() {
        record[0] = 0;
        if signers >> place & 1 == 1 && found.distance[place] != 0 {
            found.write(place, record);
        }
    }
    Signers { number: 0, detail: 0, length: length as u64 }
}

fn signers(open: &Open) -> Places {
    (0..open.entries).filter(|&place| open.line(place).kind == SIGNER).fold(0, |all, place| all | 1 << place)
}

/// Of each place the one before it on the best chain, and how many places that
/// chain has, 0 where there is none.
struct Found {
    parent: [u8; PLACES],
    distance: [u8; PLACES],
}

impl Found {
    fn write(&self, target: usize, record: &mut [u8]) {
        let mut place = target as u8;
        record[0] = self.distance[target];
        for slot in (1..=self.distance[target] as usize).rev() {
            record[slot] = place;
            place = self.parent[place as usize];
        }
    }
}

/// From all usable anchors, a queue. Who finds a place first is its parent, and
/// places are tried in ascending order: so each gets the first of its shortest
/// chains. What turns out to be unusable is not tried again.
fn search(question: &mut Question, signers: Places) -> Found {
    let n = question.open.entries;
    let links = question.links;
    let mut found = Found { parent: [255; PLACES], distance: [0; PLACES] };
    let mut queue = Vec::with_capacity(n);
    for anchor in each(question.anchors) {
        if question.passes(anchor, Role::Anchor) {
            found.distance[anchor] = 1;
            queue.push(anchor);
        }
    }
    let mut left = links | signers;
    let mut head = 0;
    while let Some(&from) = queue.get(head) {
        head += 1;
        let row = &question.table[from * n..][..n];
        for place in each(left) {
            if row[place] == 0 {
                continue;
            }
            let role = if links >> place & 1 == 1 { Role::Link } else { Role::Signer };
            if !question.passes(place, role) {
                left &= !(1 << place);
                continue;
            }
            if !question.matches(from, place) {
                continue;
            }
            left &= !(1 << place);
            if question.usable(place, role) {
                found.parent[place] = from as u8;
                found.distance[place] = found.distance[from] + 1;
                if role == Role::Link {
                    queue.push(place);
                }
            }
        }
    }
    found
}
