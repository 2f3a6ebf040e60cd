//! Each question as the C interface answers it, field by field, with numbers in refusals. The calls of the archive
//! stand here and nowhere else.

#![allow(unsafe_code)]

use crate::raw;
pub use crate::raw::{
    Anchors, Certificate, Chain, Crl, Days, Entry, Image, Integer, Letters, Replay, Room, Signers, Told, Walk, Write,
};

// Each call lends slices for its own time only, and a slice's pointer and length are what the archive asks for: not null,
// and none of them overlaps the one that is written, which Rust's borrows see to.

pub fn walk(item: &[u8]) -> Walk {
    unsafe { raw::vrbolist_walk(item.as_ptr(), item.len()) }
}

pub fn integer(item: &[u8]) -> Integer {
    unsafe { raw::vrbolist_integer(item.as_ptr(), item.len()) }
}

pub fn certificate(item: &[u8], role: u64) -> Certificate {
    unsafe { raw::vrbolist_certificate(item.as_ptr(), item.len(), role) }
}

pub fn crl(item: &[u8]) -> Crl {
    unsafe { raw::vrbolist_crl(item.as_ptr(), item.len()) }
}

pub fn day_difference(first: u64, second: u64) -> Days {
    unsafe { raw::vrbolist_day_difference(first, second) }
}

pub fn crl_age(item: &[u8], day: u64) -> Days {
    unsafe { raw::vrbolist_crl_age(item.as_ptr(), item.len(), day) }
}

pub fn image(image: &[u8]) -> Image {
    unsafe { raw::vrbolist_image(image.as_ptr(), image.len()) }
}

pub fn image_for_day(image: &[u8], wanted: u64) -> Image {
    unsafe { raw::vrbolist_image_for_day(image.as_ptr(), image.len(), wanted) }
}

pub fn entry(image: &[u8], place: u64) -> Entry {
    unsafe { raw::vrbolist_entry(image.as_ptr(), image.len(), place) }
}

#[allow(clippy::too_many_arguments)]
pub fn write(
    items: &[u8],
    kinds: &[u8],
    flags: &[u8],
    lengths: &[u32],
    letters: &[u8],
    version: u64,
    day: u64,
    out: &mut [u8],
) -> Write {
    unsafe {
        raw::vrbolist_write(
            items.as_ptr(),
            items.len(),
            kinds.as_ptr(),
            kinds.len(),
            flags.as_ptr(),
            flags.len(),
            lengths.as_ptr(),
            lengths.len(),
            letters.as_ptr(),
            letters.len(),
            version,
            day,
            out.as_mut_ptr(),
            out.len(),
        )
    }
}

pub fn move_to_2(image: &[u8], out: &mut [u8]) -> Write {
    unsafe { raw::vrbolist_move_to_2(image.as_ptr(), image.len(), out.as_mut_ptr(), out.len()) }
}

pub fn move_to_1(image: &[u8], out: &mut [u8]) -> Write {
    unsafe { raw::vrbolist_move_to_1(image.as_ptr(), image.len(), out.as_mut_ptr(), out.len()) }
}

pub fn make_room(image: &[u8], table: &[u8], moment: u64, out: &mut [u8], table_out: &mut [u8]) -> Room {
    unsafe {
        raw::vrbolist_make_room(
            image.as_ptr(),
            image.len(),
            table.as_ptr(),
            table.len(),
            moment,
            out.as_mut_ptr(),
            out.len(),
            table_out.as_mut_ptr(),
            table_out.len(),
        )
    }
}

pub fn letters(image: &[u8]) -> Letters {
    unsafe { raw::vrbolist_letters(image.as_ptr(), image.len()) }
}

pub fn anchors(image: &[u8], first: u64, second: u64) -> Anchors {
    unsafe { raw::vrbolist_anchors(image.as_ptr(), image.len(), first, second) }
}

/// For bytes of which `letters` has told 1.
pub fn anchors_by_index(image: &[u8], first: u64, second: u64) -> Anchors {
    unsafe { raw::vrbolist_anchors_by_index(image.as_ptr(), image.len(), first, second) }
}

pub fn chain(image: &[u8], table: &[u8], moment: u64, target: u64) -> Chain {
    unsafe { raw::vrbolist_chain(image.as_ptr(), image.len(), table.as_ptr(), table.len(), moment, target) }
}

pub fn chain_by_rounds(image: &[u8], table: &[u8], moment: u64, target: u64) -> Chain {
    unsafe { raw::vrbolist_chain_by_rounds(image.as_ptr(), image.len(), table.as_ptr(), table.len(), moment, target) }
}

pub fn proposal(image: &[u8], table: &[u8], moment: u64, target: u64, places: &[u8]) -> Told {
    unsafe {
        raw::vrbolist_proposal(
            image.as_ptr(),
            image.len(),
            table.as_ptr(),
            table.len(),
            moment,
            target,
            places.as_ptr(),
            places.len(),
        )
    }
}

pub fn all_signers(image: &[u8], table: &[u8], moment: u64, out: &mut [u8]) -> Signers {
    unsafe {
        raw::vrbolist_all_signers(
            image.as_ptr(),
            image.len(),
            table.as_ptr(),
            table.len(),
            moment,
            out.as_mut_ptr(),
            out.len(),
        )
    }
}

pub fn replay(log: &[u8], list: &mut [u64]) -> Replay {
    unsafe { raw::vrbolist_replay(log.as_ptr(), log.len(), list.as_mut_ptr(), list.len()) }
}
