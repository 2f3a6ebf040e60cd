//! Lists of extensions.

use crate::der::{split, BOOLEAN, OCTET_STRING, SEQUENCE};
use crate::reader::Reader;

// The last octet of each extension OID 2.5.29.x that a rule names.
pub(crate) const SUBJECT_KEY_ID: u8 = 14;
pub(crate) const KEY_USAGE: u8 = 15;
pub(crate) const BASIC_CONSTRAINTS: u8 = 19;
pub(crate) const CRL_NUMBER: u8 = 20;
pub(crate) const AUTHORITY_KEY_ID: u8 = 35;

/// The OID of the document type list.
const DOCUMENT_TYPE_LIST: [u8; 7] = [0x67, 0x81, 0x08, 0x01, 0x01, 0x06, 0x02];

/// How many OIDs other than 2.5.29.0 to .63 are compared as they come.
const FEW: usize = 12;

/// One bit for each OID 2.5.29.0 to .63.
pub(crate) const fn bit(last: u8) -> u64 {
    1 << last
}

/// One extension: OID, optional BOOLEAN which is then TRUE, OCTET STRING.
struct Extension<'a> {
    oid: &'a [u8],
    critical: bool,
    value: &'a [u8],
}

/// Reads one extension.
#[inline(always)]
fn extension<'a>(reader: &mut Reader<'a>) -> Option<Extension<'a>> {
    let outer = reader.enter(SEQUENCE)?;
    let oid = reader.oid()?;
    let critical = reader.next_is(BOOLEAN);
    if critical && reader.primitive(BOOLEAN)? != [0xFF] {
        return None;
    }
    let value = reader.primitive(OCTET_STRING)?;
    reader.leave(outer)?;
    Some(Extension { oid, critical, value })
}

/// What the rules ask about a list of extensions.
#[derive(Clone, Copy, Default)]
pub(crate) struct Extensions<'a> {
    /// Which of 2.5.29.0 to .63 are there.
    pub there: u64,
    /// Which of them are critical.
    pub critical: u64,
    /// Another critical extension.
    pub other_critical: bool,
    /// An OID stands twice.
    pub doubled: bool,
    pub empty: bool,
    pub subject_key_id: &'a [u8],
    pub key_usage: &'a [u8],
    pub basic_constraints: &'a [u8],
    pub authority_key_id: &'a [u8],
    /// The document type list's contents.
    pub document_types: Option<&'a [u8]>,
    pub document_types_critical: bool,
}

impl<'a> Extensions<'a> {
    /// Whether all of these are there.
    pub fn all(&self, bits: u64) -> bool {
        self.there & bits == bits
    }

    /// Whether none of these is critical.
    pub fn none_critical(&self, bits: u64) -> bool {
        self.critical & bits == 0
    }

    /// Takes one of 2.5.29.0 to .63.
    #[inline(always)]
    fn take_known(&mut self, last: u8, extension: &Extension<'a>) {
        let bit = bit(last);
        self.doubled |= self.there & bit != 0;
        self.there |= bit;
        if extension.critical {
            self.critical |= bit;
        }
        match last {
            SUBJECT_KEY_ID => self.subject_key_id = extension.value,
            KEY_USAGE => self.key_usage = extension.value,
            BASIC_CONSTRAINTS => self.basic_constraints = extension.value,
            AUTHORITY_KEY_ID => self.authority_key_id = extension.value,
            _ => {}
        }
    }

    /// Takes any other extension.
    fn take_other(&mut self, extension: &Extension<'a>) {
        self.other_critical |= extension.critical;
        if extension.oid == DOCUMENT_TYPE_LIST {
            self.document_types = Some(extension.value);
            self.document_types_critical = extension.critical;
        }
    }
}

/// Reads a SEQUENCE of extensions.
#[inline]
pub(crate) fn extensions<'a>(reader: &mut Reader<'a>) -> Option<Extensions<'a>> {
    let mut read = Extensions::default();
    let mut others: [&[u8]; FEW] = [&[]; FEW];
    let mut number = 0;
    let outer = reader.enter(SEQUENCE)?;
    let list = reader.rest();
    read.empty = reader.at_end();
    while !reader.at_end() {
        let extension = extension(reader)?;
        match *extension.oid {
            [0x55, 0x1D, last] if last < 64 => read.take_known(last, &extension),
            _ => {
                read.take_other(&extension);
                if number < FEW {
                    read.doubled |= others[..number].contains(&extension.oid);
                    others[number] = extension.oid;
                }
                number += 1;
            }
        }
    }
    if number > FEW && !read.doubled {
        read.doubled = any_doubled(list);
    }
    reader.leave(outer)?;
    Some(read)
}

/// Whether an OID stands twice in a long list, by sorting.
#[cold]
fn any_doubled(list: &[u8]) -> bool {
    let mut oids = Vec::new();
    let mut rest = list;
    while let Some(extension) = split(rest) {
        oids.extend(split(extension.contents).map(|oid| oid.contents));
        rest = extension.after;
    }
    oids.sort_unstable();
    oids.windows(2).any(|pair| pair[0] == pair[1])
}

/// Reads the extensions of a CRL entry: whether one of them is critical.
pub(crate) fn entry_extensions(reader: &mut Reader) -> Option<bool> {
    let mut critical = false;
    let outer = reader.enter(SEQUENCE)?;
    while !reader.at_end() {
        critical |= extension(reader)?.critical;
    }
    reader.leave(outer)?;
    Some(critical)
}
