//! The certificate profile.

use crate::der::{self, split, INTEGER, OCTET_STRING, PRINTABLE_STRING, SEQUENCE, SET};
use crate::extensions::{bit, extensions, Extensions, AUTHORITY_KEY_ID, BASIC_CONSTRAINTS, KEY_USAGE, SUBJECT_KEY_ID};
use crate::name::{name, Name};
use crate::reader::{read_item, Reader};
use crate::refusal::Refusal;
use crate::time::time;

/// The answer to the certificate question. Parts are given as offset and length.
#[derive(Clone, Copy, Debug, Default, PartialEq, Eq)]
pub struct Certificate {
    pub number: u64,
    pub detail: u64,
    /// YYYYMMDDHHMMSS.
    pub start: u64,
    pub end: u64,
    /// The whole issuer, subject and key elements.
    pub issuer_at: u64,
    pub issuer_len: u64,
    pub subject_at: u64,
    pub subject_len: u64,
    pub key_at: u64,
    pub key_len: u64,
    /// The contents of the serial and of both key identifiers.
    pub serial_at: u64,
    pub serial_len: u64,
    pub subject_key_id_at: u64,
    pub subject_key_id_len: u64,
    pub authority_key_id_at: u64,
    pub authority_key_id_len: u64,
    pub country: [u8; 2],
}

/// Judges an item as a certificate of a role: 1 anchor, 2 link, 3 DS.
pub fn certificate(item: &[u8], role: u64) -> Certificate {
    match Role::of(role).and_then(|role| read(item, role)) {
        Ok(fields) => answer(item, &fields),
        Err(Refusal { number, detail }) => Certificate { number, detail, ..Certificate::default() },
    }
}

fn answer(item: &[u8], fields: &Fields) -> Certificate {
    let at = |part: &[u8]| der::offset(item, part) as u64;
    Certificate {
        number: 0,
        detail: 0,
        start: fields.start,
        end: fields.end,
        issuer_at: at(fields.issuer),
        issuer_len: fields.issuer.len() as u64,
        subject_at: at(fields.subject),
        subject_len: fields.subject.len() as u64,
        key_at: at(fields.key),
        key_len: fields.key.len() as u64,
        serial_at: at(fields.serial),
        serial_len: fields.serial.len() as u64,
        subject_key_id_at: at(fields.subject_key_id),
        subject_key_id_len: fields.subject_key_id.len() as u64,
        authority_key_id_at: at(fields.authority_key_id),
        authority_key_id_len: fields.authority_key_id.len() as u64,
        country: fields.country,
    }
}

#[derive(Clone, Copy, PartialEq, Eq)]
pub(crate) enum Role {
    Anchor,
    Link,
    Signer,
}

impl Role {
    pub fn of(role: u64) -> Result<Role, Refusal> {
        match role {
            1 => Ok(Role::Anchor),
            2 => Ok(Role::Link),
            3 => Ok(Role::Signer),
            _ => Err(Refusal::ARGUMENT),
        }
    }
}

/// What a passing certificate says.
#[derive(Clone, Copy)]
pub(crate) struct Fields<'a> {
    pub start: u64,
    pub end: u64,
    pub issuer: &'a [u8],
    pub subject: &'a [u8],
    pub key: &'a [u8],
    pub serial: &'a [u8],
    pub subject_key_id: &'a [u8],
    pub authority_key_id: &'a [u8],
    pub country: [u8; 2],
}

/// What rule 1 finds.
struct Shape<'a> {
    version: &'a [u8],
    serial: &'a [u8],
    issuer: Name<'a>,
    subject: Name<'a>,
    start: Option<u64>,
    end: Option<u64>,
    key: &'a [u8],
    /// 81 or 82 is there.
    unique_ids: bool,
    algorithms_equal: bool,
    extensions: Extensions<'a>,
}

/// The fields of a certificate that keeps every rule of its role.
pub(crate) fn read(item: &[u8], role: Role) -> Result<Fields<'_>, Refusal> {
    let shape = read_item(item, shape)?;
    judge(item, role, &shape).map_err(Refusal::profile)
}

/// Rule 1: SEQUENCE of tbs, algorithm, BIT STRING, and the tbs in order.
#[inline(always)]
fn shape<'a>(reader: &mut Reader<'a>) -> Option<Shape<'a>> {
    let outside = reader.enter(SEQUENCE)?;
    let in_item = reader.enter(SEQUENCE)?;
    let in_tbs = reader.enter(0xA0)?;
    let version = reader.integer()?;
    reader.leave(in_tbs)?;
    let serial = reader.integer()?;
    let algorithm = reader.algorithm()?;
    let issuer = name(reader)?;
    let in_tbs = reader.enter(SEQUENCE)?;
    let start = one_time(reader)?;
    let end = one_time(reader)?;
    reader.leave(in_tbs)?;
    let subject = name(reader)?;
    let key = reader.whole(SEQUENCE, 3)?;
    let unique_ids = unique_ids(reader)?;
    let in_tbs = reader.enter(0xA3)?;
    let extensions = extensions(reader)?;
    reader.leave(in_tbs)?;
    reader.leave(in_item)?;
    let algorithms_equal = reader.sealed(algorithm)?;
    reader.leave(outside)?;
    Some(Shape { version, serial, issuer, subject, start, end, key, unique_ids, algorithms_equal, extensions })
}

/// A time element, tag 17 or 18 hex; the inner option says whether its form is
/// that of rule 7.
#[inline(always)]
pub(crate) fn one_time(reader: &mut Reader) -> Option<Option<u64>> {
    let tag = if reader.next_is(der::UTC_TIME) { der::UTC_TIME } else { der::GENERALIZED_TIME };
    let contents = reader.primitive(tag)?;
    Some(time(tag, contents))
}

/// Optional 81, then optional 82: whether one is there.
#[inline(always)]
fn unique_ids(reader: &mut Reader) -> Option<bool> {
    let mut there = false;
    for id in [0x81, 0x82] {
        if reader.next_is(id) {
            reader.primitive(id)?;
            there = true;
        }
    }
    Some(there)
}

/// Rules 2 to 14 in order; gives the smallest that is broken.
fn judge<'a>(item: &'a [u8], role: Role, shape: &Shape<'a>) -> Result<Fields<'a>, u64> {
    let extensions = &shape.extensions;
    let serial = shape.serial;
    // 2: version number 2.
    ensure(2, shape.version == [2])?;
    // 3: serial positive, at most 20 octets.
    ensure(3, serial.len() <= 20 && serial[0] < 0x80 && serial != [0])?;
    // 4: inner and outer algorithm equal.
    ensure(4, shape.algorithms_equal)?;
    // 5: one country in each name, the same two letters.
    let country = shape.issuer.country.ok_or(5u64)?;
    ensure(5, shape.subject.country == Some(country))?;
    // 6: neither 81 nor 82.
    ensure(6, !shape.unique_ids)?;
    // 7: times of their form, start not after end.
    let (start, end) = (shape.start.ok_or(7u64)?, shape.end.ok_or(7u64)?);
    ensure(7, start <= end)?;
    // 8: at least one extension, no OID twice.
    ensure(8, !extensions.empty && !extensions.doubled)?;
    ensure(9, key_usage_good(role, extensions))?;
    ensure(10, basic_constraints_good(role, extensions))?;
    let (subject_key_id, authority_key_id) = key_ids(item, role, extensions).ok_or(11u64)?;
    // 12: four that are there, not critical.
    const FOUR: u64 = bit(16) | bit(17) | bit(18) | bit(31);
    ensure(12, extensions.all(FOUR) && extensions.none_critical(FOUR))?;
    ensure(13, role != Role::Signer || document_types_good(extensions))?;
    // 14: nothing critical but those of rules 9 and 10.
    let may = bit(KEY_USAGE) | bit(BASIC_CONSTRAINTS);
    ensure(14, extensions.none_critical(!may) && !extensions.other_critical)?;
    Ok(Fields {
        start,
        end,
        issuer: shape.issuer.whole,
        subject: shape.subject.whole,
        key: shape.key,
        serial,
        subject_key_id,
        authority_key_id,
        country,
    })
}

#[inline(always)]
fn ensure(rule: u64, kept: bool) -> Result<(), u64> {
    if kept {
        Ok(())
    } else {
        Err(rule)
    }
}

/// Rule 9: keyUsage critical, its contents those of the role.
fn key_usage_good(role: Role, extensions: &Extensions) -> bool {
    let wanted = match role {
        Role::Anchor | Role::Link => [0x03, 0x02, 0x01, 0x06],
        Role::Signer => [0x03, 0x02, 0x07, 0x80],
    };
    extensions.critical & bit(KEY_USAGE) != 0 && extensions.key_usage == wanted
}

/// Rule 10: basicConstraints critical and exact; absent in a DS.
fn basic_constraints_good(role: Role, extensions: &Extensions) -> bool {
    const WANTED: [u8; 8] = [0x30, 0x06, 0x01, 0x01, 0xFF, 0x02, 0x01, 0x00];
    if role == Role::Signer {
        return extensions.there & bit(BASIC_CONSTRAINTS) == 0;
    }
    extensions.critical & bit(BASIC_CONSTRAINTS) != 0 && extensions.basic_constraints == WANTED
}

/// Rule 11: the contents of the subject's and the authority's key identifier;
/// for one that may be absent and is, no octets at offset 0.
fn key_ids<'a>(item: &'a [u8], role: Role, extensions: &Extensions<'a>) -> Option<(&'a [u8], &'a [u8])> {
    if !extensions.none_critical(bit(SUBJECT_KEY_ID) | bit(AUTHORITY_KEY_ID)) {
        return None;
    }
    let absent = &item[..0];
    let subject = if extensions.all(bit(SUBJECT_KEY_ID)) {
        subject_key_id(extensions.subject_key_id)?
    } else if role == Role::Signer {
        absent
    } else {
        return None;
    };
    let authority = if extensions.all(bit(AUTHORITY_KEY_ID)) {
        authority_key_id(extensions.authority_key_id)?
    } else if role == Role::Anchor {
        absent
    } else {
        return None;
    };
    Some((subject, authority))
}

/// Contents of subjectKeyIdentifier: one OCTET STRING.
fn subject_key_id(value: &[u8]) -> Option<&[u8]> {
    let inner = split(value)?;
    (inner.id == OCTET_STRING && inner.after.is_empty()).then_some(inner.contents)
}

/// Contents of authorityKeyIdentifier: a SEQUENCE whose first member is tag 80,
/// passing a walk of its own.
fn authority_key_id(value: &[u8]) -> Option<&[u8]> {
    let outer = split(value)?;
    let first = split(outer.contents)?;
    if outer.id != SEQUENCE || !outer.after.is_empty() || first.id != 0x80 {
        return None;
    }
    if !first.after.is_empty() {
        // More members: walk them all.
        der::tree(value, value, 1, &mut 0).ok()?;
    }
    Some(first.contents)
}

/// Rule 13: SEQUENCE {INTEGER 0, SET of one or more PrintableStrings of 1 or 2
/// octets}, not critical, passing a walk of its own.
fn document_types_good(extensions: &Extensions) -> bool {
    !extensions.document_types_critical && extensions.document_types.and_then(document_types).is_some()
}

fn document_types(value: &[u8]) -> Option<()> {
    let outer = split(value)?;
    let version = split(outer.contents)?;
    let set = split(version.after)?;
    let zero = version.id == INTEGER && version.contents == [0];
    let fills = outer.after.is_empty() && set.after.is_empty() && !set.contents.is_empty();
    if outer.id != SEQUENCE || !zero || set.id != SET || !fills {
        return None;
    }
    // The SEQUENCE, the INTEGER and the SET were read.
    let mut count = 3;
    let mut rest = set.contents;
    while !rest.is_empty() {
        let string = split(rest)?;
        if string.id != PRINTABLE_STRING || !matches!(string.contents.len(), 1 | 2) {
            return None;
        }
        count += 1;
        rest = string.after;
    }
    (count <= der::COUNT_LIMIT && der::unsorted(set.contents).is_none()).then_some(())
}
