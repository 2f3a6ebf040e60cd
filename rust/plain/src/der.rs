//! DER: one element's header and contents, and the walk over a tree.

use crate::refusal::Refusal;
use std::cmp::Ordering;

/// The longest item that is read.
pub(crate) const ITEM_LIMIT: usize = 16_384;
/// The deepest element; the outermost is at depth 1.
pub(crate) const DEPTH_LIMIT: usize = 16;
/// The most elements in an item.
pub(crate) const COUNT_LIMIT: usize = 4_096;

/// The bit of a constructed element's identifier.
pub(crate) const CONSTRUCTED: u8 = 0x20;

pub(crate) const BOOLEAN: u8 = 0x01;
pub(crate) const INTEGER: u8 = 0x02;
pub(crate) const BIT_STRING: u8 = 0x03;
pub(crate) const OCTET_STRING: u8 = 0x04;
pub(crate) const NULL: u8 = 0x05;
pub(crate) const OID: u8 = 0x06;
pub(crate) const PRINTABLE_STRING: u8 = 0x13;
pub(crate) const UTC_TIME: u8 = 0x17;
pub(crate) const GENERALIZED_TIME: u8 = 0x18;
pub(crate) const SEQUENCE: u8 = 0x30;
pub(crate) const SET: u8 = 0x31;

/// The walk's answer.
#[derive(Clone, Copy, Debug, Default, PartialEq, Eq)]
pub struct Walk {
    pub number: u64,
    pub detail: u64,
    /// The number of elements in the tree.
    pub count: u64,
}

/// Judges bytes as one DER item.
pub fn walk(item: &[u8]) -> Walk {
    match judge(item) {
        Ok(count) => Walk { count: count as u64, ..Walk::default() },
        Err(Refusal { number, detail }) => Walk { number, detail, count: 0 },
    }
}

/// The item's count of elements, or the first fault that the walk meets.
pub(crate) fn judge(item: &[u8]) -> Result<usize, Refusal> {
    if item.len() > ITEM_LIMIT {
        return Err(Refusal::TOO_LONG);
    }
    let mut count = 0;
    let after = tree(item, item, 1, &mut count)?;
    if !after.is_empty() {
        // Octets after the outermost element, told last.
        return Err(Refusal::der(item.len() - after.len()));
    }
    Ok(count)
}

/// An element, and what stands after it in its parent.
#[derive(Clone, Copy)]
pub(crate) struct Element<'a> {
    pub id: u8,
    pub contents: &'a [u8],
    pub after: &'a [u8],
}

/// Splits the first element off `rest`, which ends where its parent ends. The
/// length: under 128 in one octet, 81 only for 128 to 255, 82 only for 256 to
/// 65,535, no other form; the end not beyond the parent.
#[inline(always)]
pub(crate) fn split(rest: &[u8]) -> Option<Element<'_>> {
    let [id, first, tail @ ..] = rest else {
        return None;
    };
    let (contents, after) = match (first, tail) {
        (0..=0x7F, tail) => tail.split_at_checked(*first as usize)?,
        (0x81, [length @ 0x80..=0xFF, tail @ ..]) => tail.split_at_checked(*length as usize)?,
        (0x82, [high @ 1..=0xFF, low, tail @ ..]) => tail.split_at_checked((*high as usize) << 8 | *low as usize)?,
        _ => return None,
    };
    Some(Element { id: *id, contents, after })
}

/// The offset at which a part of an item stands in it.
#[inline(always)]
pub(crate) fn offset(item: &[u8], part: &[u8]) -> usize {
    part.as_ptr() as usize - item.as_ptr() as usize
}

/// Whether an identifier may stand: tag number under 31, universal 0 never,
/// universal 16 and 17 constructed, every other universal tag primitive.
#[inline(always)]
pub(crate) fn identifier_good(id: u8) -> bool {
    const fn good(id: u8) -> bool {
        let number = id & 0x1F;
        let constructed = id & 0x20 != 0;
        let universal = id & 0xC0 == 0;
        number != 31 && !(universal && (number == 0 || constructed != (number == 16 || number == 17)))
    }
    const TABLE: [bool; 256] = {
        let mut table = [false; 256];
        let mut id = 0;
        while id < 256 {
            table[id] = good(id as u8);
            id += 1;
        }
        table
    };
    TABLE[id as usize]
}

/// Whether the contents of a primitive element may stand.
#[inline(always)]
pub(crate) fn contents_good(id: u8, contents: &[u8]) -> bool {
    if id > OID {
        return true;
    }
    match id {
        BOOLEAN => matches!(contents, [0x00] | [0xFF]),
        INTEGER => integer_good(contents),
        BIT_STRING => bit_string_good(contents),
        NULL => contents.is_empty(),
        OID => oid_good(contents),
        _ => true,
    }
}

/// At least one octet, the first nine bits not all alike.
#[inline(always)]
pub(crate) fn integer_good(contents: &[u8]) -> bool {
    match contents {
        [] => false,
        [_] => true,
        [first, second, ..] => {
            let nine = (*first as u16) << 1 | (*second as u16) >> 7;
            nine != 0 && nine != 0x1FF
        }
    }
}

/// Not empty, no sub-identifier starting with 80 hex, the last one complete.
#[inline(always)]
pub(crate) fn oid_good(contents: &[u8]) -> bool {
    // Three sub-identifiers of one octet, as most OIDs here have.
    if let [first, second, third] = contents {
        if (first | second | third) < 0x80 {
            return true;
        }
    }
    let mut starting = true;
    for &octet in contents {
        if starting && octet == 0x80 {
            return false;
        }
        starting = octet < 0x80;
    }
    starting && !contents.is_empty()
}

/// The first octet 0 to 7, and 0 if it is alone; the unused bits zero.
#[inline(always)]
pub(crate) fn bit_string_good(contents: &[u8]) -> bool {
    match contents {
        [] => false,
        [unused] => *unused == 0,
        [unused, .., last] => *unused < 8 && last & ((1u8 << *unused) - 1) == 0,
    }
}

/// Whether one encoding is smaller than another, octet by octet, the shorter
/// padded with zero octets. Most differ in their headers.
fn smaller(a: &[u8], b: &[u8]) -> bool {
    if let ([a0, a1, ..], [b0, b1, ..]) = (a, b) {
        if (a0, a1) != (b0, b1) {
            return (a0, a1) < (b0, b1);
        }
    }
    let common = a.len().min(b.len());
    match a[..common].cmp(&b[..common]) {
        Ordering::Less => true,
        Ordering::Equal => b[common..].iter().any(|octet| *octet != 0),
        Ordering::Greater => false,
    }
}

/// Where the first member of a SET starts that is smaller than the one before
/// it, as far as headers can be read: none in a SET of one member.
#[inline(always)]
pub(crate) fn unsorted(contents: &[u8]) -> Option<&[u8]> {
    match contents {
        [_, length @ 0..=0x7F, tail @ ..] if tail.len() <= *length as usize => None,
        _ => descent(contents),
    }
}

#[cold]
fn descent(contents: &[u8]) -> Option<&[u8]> {
    let mut last = contents;
    let mut rest = split(contents)?.after;
    while let Some(element) = split(rest) {
        if smaller(&rest[..rest.len() - element.after.len()], &last[..last.len() - rest.len()]) {
            return Some(rest);
        }
        (last, rest) = (rest, element.after);
    }
    None
}

/// Walks the first element of `rest`, which is at `depth`, and all below it,
/// adding to `count`. Gives what stands after it, or the first fault, with
/// offsets in `item`, of which `rest` is a part.
pub(crate) fn tree<'a>(item: &'a [u8], rest: &'a [u8], depth: usize, count: &mut usize) -> Result<&'a [u8], Refusal> {
    match elements::<false>(item, rest, depth, count) {
        Err(Refusal::UNSORTED) => tree_unsorted(item, rest, depth, count),
        read => read,
    }
}

/// The same where a SET is out of order: the walk anew, up to the member that
/// is too small or to a fault before it.
#[cold]
fn tree_unsorted<'a>(item: &'a [u8], rest: &'a [u8], depth: usize, count: &mut usize) -> Result<&'a [u8], Refusal> {
    elements::<true>(item, rest, depth, count)
}

#[inline(always)]
fn elements<'a, const UNSORTED: bool>(
    item: &'a [u8],
    rest: &'a [u8],
    depth: usize,
    count: &mut usize,
) -> Result<&'a [u8], Refusal> {
    // What stands after each open element.
    let mut open: [&[u8]; DEPTH_LIMIT + 1] = [&[]; DEPTH_LIMIT + 1];
    let (mut rest, top, mut depth, mut read) = (rest, depth, depth, *count);
    // Where the first member out of order stands, of those in the SETs that
    // were opened: it is refused when the walk comes to it.
    let mut fallen = usize::MAX;
    loop {
        let Some(Element { id, contents, after }) = split(rest) else {
            return Err(Refusal::der(offset(item, rest)));
        };
        if !identifier_good(id) {
            return Err(Refusal::der(offset(item, rest)));
        }
        if depth > DEPTH_LIMIT || read >= COUNT_LIMIT {
            return Err(Refusal::limit(offset(item, rest)));
        }
        if UNSORTED && offset(item, rest) == fallen {
            return Err(Refusal::der(fallen));
        }
        read += 1;
        if id & CONSTRUCTED != 0 && !contents.is_empty() {
            if id == SET {
                if let Some(member) = unsorted(contents) {
                    if !UNSORTED {
                        return Err(Refusal::UNSORTED);
                    }
                    fallen = fallen.min(offset(item, member));
                }
            }
            open[depth] = after;
            depth += 1;
            rest = contents;
            continue;
        }
        if !contents_good(id, contents) {
            return Err(Refusal::der(offset(item, rest)));
        }
        rest = after;
        while rest.is_empty() || depth == top {
            if depth == top {
                *count = read;
                return Ok(rest);
            }
            depth -= 1;
            rest = open[depth];
        }
    }
}
