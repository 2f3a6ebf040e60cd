//! Making room: an image without what is past at a moment and what fails its
//! profile, and its verdict table cut to match. Each item is opened once, and
//! each that stays is copied once.

use crate::certificate::{self, Role};
use crate::chain::asked;
use crate::crl;
use crate::image::{width, Open, ANCHOR, CRL, LINK, PLACES, TRAILER};
use crate::refusal::Refusal;

/// The answer: the lengths of both outputs, and how many items stay.
#[derive(Clone, Copy, Debug, Default, PartialEq, Eq)]
pub struct Made {
    pub number: u64,
    pub detail: u64,
    pub length: u64,
    pub table_length: u64,
    pub entries: u64,
}

/// Writes the image of the items that stay, and the verdicts of these alone. Refusals in order: 5, 1, 9.
pub fn make_room(image: &[u8], table: &[u8], moment: u64, out: &mut [u8], table_out: &mut [u8]) -> Made {
    match made(image, table, moment, out, table_out) {
        Ok((length, table_length, entries)) => Made {
            number: 0,
            detail: 0,
            length: length as u64,
            table_length: table_length as u64,
            entries: entries as u64,
        },
        Err(Refusal { number, detail }) => Made { number, detail, ..Made::default() },
    }
}

fn made(
    image: &[u8],
    table: &[u8],
    moment: u64,
    out: &mut [u8],
    table_out: &mut [u8],
) -> Result<(usize, usize, usize), Refusal> {
    let open = asked(image, table, moment)?;
    let mut places = [0; PLACES];
    let (mut entries, mut packed) = (0, 0);
    for place in 0..open.entries {
        if stays(&open, place, moment) {
            places[entries] = place;
            entries += 1;
            packed += open.line(place).length;
        }
    }
    let places = &places[..entries];
    let (length, table_length) = (packed + width(open.version) * entries + TRAILER, entries * entries);
    // Both lengths are tested before either output is written.
    let (Some(out), Some(table_out)) = (out.get_mut(..length), table_out.get_mut(..table_length)) else {
        return Err(Refusal::OUTPUT);
    };
    fill(&open, places, packed, out);
    cut(open.entries, table, places, table_out);
    Ok((length, table_length, entries))
}

/// Whether an item passes its profile, and its end or next update is not before the moment.
fn stays(open: &Open, place: usize, moment: u64) -> bool {
    let item = open.item(place);
    let end = |role| certificate::read(item, role).map(|fields| fields.end);
    let last = match open.line(place).kind {
        CRL => crl::read(item).map(|fields| fields.next_update),
        ANCHOR => end(Role::Anchor),
        LINK => end(Role::Link),
        _ => end(Role::Signer),
    };
    last.is_ok_and(|last| moment <= last)
}

/// Fills `out`, which is as long as the new image: the items of these places, `packed` bytes, their index lines with new
/// offsets, and the trailer with a new start and count.
fn fill(open: &Open, places: &[usize], packed: usize, out: &mut [u8]) {
    let (items, rest) = out.split_at_mut(packed);
    let (index, trailer) = rest.split_at_mut(width(open.version) * places.len());
    let mut offset = 0;
    for (line, &place) in index.chunks_exact_mut(width(open.version)).zip(places) {
        let item = open.item(place);
        line.copy_from_slice(open.octets(place));
        line[4..8].copy_from_slice(&(offset as u32).to_be_bytes());
        items[offset..offset + item.len()].copy_from_slice(item);
        offset += item.len();
    }
    trailer.copy_from_slice(&open.image[open.image.len() - TRAILER..]);
    trailer[0..4].copy_from_slice(&(packed as u32).to_be_bytes());
    trailer[4..6].copy_from_slice(&(places.len() as u16).to_be_bytes());
}

/// Of the rows of these places the verdicts in their columns.
fn cut(n: usize, table: &[u8], places: &[usize], out: &mut [u8]) {
    if places.is_empty() {
        return;
    }
    for (line, &signer) in out.chunks_exact_mut(places.len()).zip(places) {
        let row = &table[signer * n..][..n];
        for (verdict, &signed) in line.iter_mut().zip(places) {
            *verdict = row[signed];
        }
    }
}
