//! The letters of version 2: the moves between the versions, and whether letters are true.

use crate::certificate::{self, Role};
use crate::crl;
use crate::image::{read_as, Line, Open, ANCHOR, CRL, LINK, PLACES};
use crate::refusal::Refusal;
use crate::writer::{Columns, Written};

/// The answer of the letters' check.
#[derive(Clone, Copy, Debug, Default, PartialEq, Eq)]
pub struct Letters {
    pub number: u64,
    pub detail: u64,
    /// 1 where every item has its true letters, else 0.
    pub letters_true: u64,
}

/// Whether every item of an image of version 2 has its true letters.
pub fn letters(image: &[u8]) -> Letters {
    match read_as(image, 2) {
        Ok(open) => {
            let all_true = (0..open.entries).all(|place| open.line(place).country == true_letters(&open, place));
            Letters { number: 0, detail: 0, letters_true: all_true as u64 }
        }
        Err(Refusal { number, detail }) => Letters { number, detail, letters_true: 0 },
    }
}

/// Writes an image of version 1 again in version 2, each item with its true letters. Refusals in order: 5, 3, 9.
pub fn move_to_2(image: &[u8], out: &mut [u8]) -> Written {
    Written::of(read_as(image, 1).and_then(|open| {
        let of = |place| true_letters(&open, place);
        rewritten(&open, of, 2, out)
    }))
}

/// Writes an image of version 2 again in version 1. Refusals in order: 5, 9.
pub fn move_to_1(image: &[u8], out: &mut [u8]) -> Written {
    Written::of(read_as(image, 2).and_then(|open| rewritten(&open, |_| [0; 2], 1, out)))
}

/// The same items, flags and day in a version, with other letters.
fn rewritten(open: &Open, of: impl Fn(usize) -> [u8; 2], version: u16, out: &mut [u8]) -> Result<usize, Refusal> {
    let (mut kinds, mut flags, mut lengths, mut letters) = ([0; PLACES], [0; PLACES], [0; PLACES], [0; 2 * PLACES]);
    let entries = open.entries;
    for place in 0..entries {
        let Line { kind, flags: flag, length, .. } = open.line(place);
        (kinds[place], flags[place], lengths[place]) = (kind, flag, length as u32);
        letters[2 * place..2 * place + 2].copy_from_slice(&of(place));
    }
    let columns = Columns {
        items: open.packed(),
        kinds: &kinds[..entries],
        flags: &flags[..entries],
        lengths: &lengths[..entries],
        letters: &letters[..2 * entries],
    };
    columns.write(version, open.day, out)
}

/// The letters that an item reports where it passes its profile, else zeros.
pub(crate) fn true_letters(open: &Open, place: usize) -> [u8; 2] {
    let item = open.item(place);
    let of = |role| certificate::read(item, role).map(|fields| fields.country);
    let told = match open.line(place).kind {
        CRL => crl::read(item).map(|fields| fields.country),
        ANCHOR => of(Role::Anchor),
        LINK => of(Role::Link),
        _ => of(Role::Signer),
    };
    told.unwrap_or([0; 2])
}
