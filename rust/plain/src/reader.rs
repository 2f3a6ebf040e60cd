//! A reader that goes over an item once and judges DER and shape together.
//!
//! It stops at the first thing that is not as the shape wants it. The caller
//! then walks the item again: that walk names a DER fault or a limit, and if it
//! passes, it was the shape that is broken.

use crate::der::{self, Element, BIT_STRING, COUNT_LIMIT, INTEGER, ITEM_LIMIT, OID, SEQUENCE};
use crate::refusal::Refusal;

/// Reads an item's elements one after the other. Parts come out as slices of it.
pub(crate) struct Reader<'a> {
    item: &'a [u8],
    /// What is left of the open element.
    rest: &'a [u8],
    /// How many elements were read.
    pub count: usize,
}

/// Reads a whole item with `shape`. Refuses as the walk does, then rule 1.
#[inline(always)]
pub(crate) fn read_item<'a, T>(item: &'a [u8], shape: impl FnOnce(&mut Reader<'a>) -> Option<T>) -> Result<T, Refusal> {
    if item.len() > ITEM_LIMIT {
        return Err(Refusal::TOO_LONG);
    }
    let mut reader = Reader { item, rest: item, count: 0 };
    match shape(&mut reader) {
        Some(read) if reader.at_end() && reader.count <= COUNT_LIMIT => Ok(read),
        _ => Err(name_fault(item)),
    }
}

/// The fault of an item that has not the wanted shape.
#[cold]
fn name_fault(item: &[u8]) -> Refusal {
    match der::judge(item) {
        Err(refusal) => refusal,
        Ok(_) => Refusal::profile(1),
    }
}

impl<'a> Reader<'a> {
    /// Whether the open element has no more elements.
    #[inline(always)]
    pub fn at_end(&self) -> bool {
        self.rest.is_empty()
    }

    /// What is left of the open element.
    #[inline(always)]
    pub fn rest(&self) -> &'a [u8] {
        self.rest
    }

    /// What was read since `before` was left.
    #[inline(always)]
    pub fn since(&self, before: &'a [u8]) -> &'a [u8] {
        &before[..before.len() - self.rest.len()]
    }

    /// Whether the next element has this identifier.
    #[inline(always)]
    pub fn next_is(&self, id: u8) -> bool {
        self.rest.first() == Some(&id)
    }

    /// The next element, if it has this identifier.
    #[inline(always)]
    fn element(&mut self, id: u8) -> Option<Element<'a>> {
        if !self.next_is(id) {
            return None;
        }
        self.count += 1;
        der::split(self.rest)
    }

    /// Opens a constructed element. Gives what `leave` wants.
    #[inline(always)]
    pub fn enter(&mut self, id: u8) -> Option<&'a [u8]> {
        let element = self.element(id)?;
        self.rest = element.contents;
        Some(element.after)
    }

    /// Leaves a constructed element, all of which must be read.
    #[inline(always)]
    pub fn leave(&mut self, after: &'a [u8]) -> Option<()> {
        let all = self.at_end();
        self.rest = after;
        all.then_some(())
    }

    /// The contents of a primitive element that are not judged.
    #[inline(always)]
    pub fn primitive(&mut self, id: u8) -> Option<&'a [u8]> {
        let element = self.element(id)?;
        self.rest = element.after;
        Some(element.contents)
    }

    /// The contents of an INTEGER.
    #[inline(always)]
    pub fn integer(&mut self) -> Option<&'a [u8]> {
        self.primitive(INTEGER).filter(|contents| der::integer_good(contents))
    }

    /// The contents of an OID.
    #[inline(always)]
    pub fn oid(&mut self) -> Option<&'a [u8]> {
        self.primitive(OID).filter(|contents| der::oid_good(contents))
    }

    /// The contents of a BIT STRING.
    #[inline(always)]
    pub fn bit_string(&mut self) -> Option<&'a [u8]> {
        self.primitive(BIT_STRING).filter(|contents| der::bit_string_good(contents))
    }

    /// Any element with all below it; it stands at `depth`.
    #[inline(always)]
    pub fn any(&mut self, depth: usize) -> Option<Element<'a>> {
        let element = der::split(self.rest)?;
        if element.id & der::CONSTRUCTED != 0 {
            // A copy, so that the reader itself can stay in registers.
            let mut count = self.count;
            der::tree(self.item, self.rest, depth, &mut count).ok()?;
            self.count = count;
        } else {
            self.count += 1;
            if !der::identifier_good(element.id) || !der::contents_good(element.id, element.contents) {
                return None;
            }
        }
        self.rest = element.after;
        Some(element)
    }

    /// A constructed element that is judged by its tag alone, with all below it:
    /// the whole element.
    #[inline(always)]
    pub fn whole(&mut self, id: u8, depth: usize) -> Option<&'a [u8]> {
        let before = self.rest;
        if !self.next_is(id) {
            return None;
        }
        self.any(depth)?;
        Some(self.since(before))
    }

    /// The algorithm in a tbs, with the number of its elements.
    #[inline(always)]
    pub fn algorithm(&mut self) -> Option<(&'a [u8], usize)> {
        let before = self.count;
        let whole = self.whole(SEQUENCE, 3)?;
        Some((whole, self.count - before))
    }

    /// What stands after the tbs: algorithm and signature. Tells whether the algorithm is that of the tbs again.
    #[inline(always)]
    pub fn sealed(&mut self, (algorithm, count): (&'a [u8], usize)) -> Option<bool> {
        let equal = self.repeats(algorithm, count);
        if !equal {
            self.whole(SEQUENCE, 2)?;
        }
        self.bit_string()?;
        Some(equal)
    }

    /// An element that repeats, octet by octet, one that was read in `count`
    /// elements and stood deeper or as deep: it is not read again.
    #[inline(always)]
    fn repeats(&mut self, earlier: &[u8], count: usize) -> bool {
        match self.rest.strip_prefix(earlier) {
            Some(after) => {
                self.rest = after;
                self.count += count;
                true
            }
            None => false,
        }
    }
}
