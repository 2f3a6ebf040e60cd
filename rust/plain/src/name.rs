//! Names and their country.

use crate::der::{split, unsorted, PRINTABLE_STRING, SEQUENCE, SET};
use crate::reader::Reader;

/// countryName, 2.5.4.6.
const COUNTRY_NAME: [u8; 3] = [0x55, 0x04, 0x06];

/// A name: a SEQUENCE of non-empty SETs of SEQUENCE {OID, one element}, which
/// ascend.
#[derive(Clone, Copy)]
pub(crate) struct Name<'a> {
    /// The whole element.
    pub whole: &'a [u8],
    /// The two letters, if countryName stands once, as a PrintableString of two
    /// letters A to Z.
    pub country: Option<[u8; 2]>,
}

/// Reads a name that stands at depth 3.
#[inline]
pub(crate) fn name<'a>(reader: &mut Reader<'a>) -> Option<Name<'a>> {
    let before = reader.rest();
    let (mut countries, mut country, mut several) = (0, None, false);
    let outer = reader.enter(SEQUENCE)?;
    while !reader.at_end() {
        let in_name = reader.enter(SET)?;
        loop {
            // At least one: a SET that is empty has nothing to enter.
            let in_set = reader.enter(SEQUENCE)?;
            let oid = reader.oid()?;
            let value = reader.any(6)?;
            reader.leave(in_set)?;
            if oid == COUNTRY_NAME {
                countries += 1;
                country = letters(value.id, value.contents);
            }
            if reader.at_end() {
                break;
            }
            several = true;
        }
        reader.leave(in_name)?;
    }
    reader.leave(outer)?;
    let (country, whole) = (if countries == 1 { country } else { None }, reader.since(before));
    if several && out_of_order(whole) {
        return None;
    }
    Some(Name { whole, country })
}

/// Whether a SET of a name is out of order.
#[cold]
fn out_of_order(name: &[u8]) -> bool {
    let mut rest = split(name).map_or(&[][..], |name| name.contents);
    while let Some(set) = split(rest) {
        if unsorted(set.contents).is_some() {
            return true;
        }
        rest = set.after;
    }
    false
}

/// The letters of a PrintableString of two letters A to Z.
#[inline(always)]
fn letters(id: u8, contents: &[u8]) -> Option<[u8; 2]> {
    match *contents {
        [first, second] if id == PRINTABLE_STRING && first.is_ascii_uppercase() && second.is_ascii_uppercase() => {
            Some([first, second])
        }
        _ => None,
    }
}

/// The two octets of the first countryName in the contents of a name, by the
/// headers alone. A name that keeps the rules has its letters here.
pub(crate) fn country_in(contents: &[u8]) -> Option<[u8; 2]> {
    let mut names = contents;
    while let Some(set) = split(names) {
        let mut attributes = set.contents;
        while let Some(attribute) = split(attributes) {
            let oid = split(attribute.contents)?;
            if oid.contents == COUNTRY_NAME {
                return split(oid.after)?.contents.try_into().ok();
            }
            attributes = attribute.after;
        }
        names = set.after;
    }
    None
}
