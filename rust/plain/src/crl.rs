//! The CRL profile.

use crate::calendar::{day_real, difference, Days};
use crate::certificate::one_time;
use crate::der::{offset, split, SEQUENCE};
use crate::extensions::{bit, entry_extensions, extensions, Extensions, AUTHORITY_KEY_ID, CRL_NUMBER};
use crate::name::{country_in, name, Name};
use crate::reader::{read_item, Reader};
use crate::refusal::Refusal;

/// The answer to the CRL question.
#[derive(Clone, Copy, Debug, Default, PartialEq, Eq)]
pub struct Crl {
    pub number: u64,
    pub detail: u64,
    /// YYYYMMDDHHMMSS.
    pub this_update: u64,
    pub next_update: u64,
    /// The number of entries.
    pub entries: u64,
    /// The whole issuer element.
    pub issuer_at: u64,
    pub issuer_len: u64,
    pub country: [u8; 2],
}

/// Judges an item as a CRL.
pub fn crl(item: &[u8]) -> Crl {
    match read(item) {
        Ok(fields) => Crl {
            number: 0,
            detail: 0,
            this_update: fields.this_update,
            next_update: fields.next_update,
            entries: fields.entries,
            issuer_at: offset(item, fields.issuer) as u64,
            issuer_len: fields.issuer.len() as u64,
            country: fields.country,
        },
        Err(Refusal { number, detail }) => Crl { number, detail, ..Crl::default() },
    }
}

/// A CRL's age on a day: the difference from its this-update day to that day.
pub fn crl_age(item: &[u8], day: u64) -> Days {
    Days::of(age(item, day))
}

/// The day's 1, the CRL's own refusals, then 1 for a this-update after 2099.
fn age(item: &[u8], day: u64) -> Result<i64, Refusal> {
    if !day_real(day) {
        return Err(Refusal::ARGUMENT);
    }
    difference(read(item)?.this_update / 1_000_000, day)
}

/// What a passing CRL says.
#[derive(Clone, Copy)]
pub(crate) struct Fields<'a> {
    pub this_update: u64,
    pub next_update: u64,
    pub entries: u64,
    /// The contents of the list of entries, empty if there is none.
    pub list: &'a [u8],
    pub issuer: &'a [u8],
    pub country: [u8; 2],
}

/// What rule 1 finds.
struct Shape<'a> {
    version: &'a [u8],
    algorithms_equal: bool,
    issuer: Name<'a>,
    this_update: Option<u64>,
    next_update: Option<u64>,
    entries: Entries<'a>,
    extensions: Extensions<'a>,
}

/// What rule 1 finds in the list of entries.
#[derive(Default)]
struct Entries<'a> {
    there: bool,
    number: u64,
    list: &'a [u8],
    /// A time has not its form.
    bad_time: bool,
    critical: bool,
}

/// The fields of a CRL that keeps every rule.
pub(crate) fn read(item: &[u8]) -> Result<Fields<'_>, Refusal> {
    let shape = read_item(item, shape)?;
    judge(&shape).map_err(Refusal::profile)
}

/// Rule 1: SEQUENCE of tbs, algorithm, BIT STRING, and the tbs in order.
#[inline(always)]
fn shape<'a>(reader: &mut Reader<'a>) -> Option<Shape<'a>> {
    let outside = reader.enter(SEQUENCE)?;
    let in_item = reader.enter(SEQUENCE)?;
    let version = reader.integer()?;
    let algorithm = reader.algorithm()?;
    let issuer = name(reader)?;
    let this_update = one_time(reader)?;
    let next_update = one_time(reader)?;
    let entries = if reader.next_is(SEQUENCE) { entries(reader)? } else { Entries::default() };
    let in_tbs = reader.enter(0xA0)?;
    let extensions = extensions(reader)?;
    reader.leave(in_tbs)?;
    reader.leave(in_item)?;
    let algorithms_equal = reader.sealed(algorithm)?;
    reader.leave(outside)?;
    Some(Shape { version, algorithms_equal, issuer, this_update, next_update, entries, extensions })
}

/// The list of entries. An entry is INTEGER, time, optional SEQUENCE of extensions.
#[inline(always)]
fn entries<'a>(reader: &mut Reader<'a>) -> Option<Entries<'a>> {
    let outer = reader.enter(SEQUENCE)?;
    let mut entries = Entries { there: true, list: reader.rest(), ..Entries::default() };
    while !reader.at_end() {
        let in_list = reader.enter(SEQUENCE)?;
        reader.integer()?;
        entries.bad_time |= one_time(reader)?.is_none();
        if !reader.at_end() {
            entries.critical |= entry_extensions(reader)?;
        }
        reader.leave(in_list)?;
        entries.number += 1;
    }
    reader.leave(outer)?;
    Some(entries)
}

/// Rules 2 to 8 in order; gives the smallest that is broken.
fn judge<'a>(shape: &Shape<'a>) -> Result<Fields<'a>, u64> {
    let ensure = |rule: u64, kept: bool| if kept { Ok(()) } else { Err(rule) };
    let (entries, extensions) = (&shape.entries, &shape.extensions);
    // 2: version number 1.
    ensure(2, shape.version == [1])?;
    // 3: algorithms equal.
    ensure(3, shape.algorithms_equal)?;
    // 4: one country in the issuer.
    let country = shape.issuer.country.ok_or(4u64)?;
    // 5: all times of their form, this update not after next update.
    let this_update = shape.this_update.ok_or(5u64)?;
    let next_update = shape.next_update.ok_or(5u64)?;
    ensure(5, this_update <= next_update && !entries.bad_time)?;
    // 6: the list, if there, is not empty.
    ensure(6, !entries.there || entries.number > 0)?;
    // 7: no OID twice, authorityKeyIdentifier and cRLNumber there.
    ensure(7, !extensions.doubled && extensions.all(bit(AUTHORITY_KEY_ID) | bit(CRL_NUMBER)))?;
    // 8: nothing critical.
    let critical = extensions.critical != 0 || extensions.other_critical || entries.critical;
    ensure(8, !critical)?;
    Ok(Fields {
        this_update,
        next_update,
        entries: entries.number,
        list: entries.list,
        issuer: shape.issuer.whole,
        country,
    })
}

/// The letters where a CRL has its issuer's country, by the headers alone. A CRL
/// that passes has them here; of any other this says nothing.
pub(crate) fn country_place(item: &[u8]) -> Option<[u8; 2]> {
    let outermost = split(item)?;
    let tbs = split(outermost.contents)?;
    let version = split(tbs.contents)?;
    let algorithm = split(version.after)?;
    country_in(split(algorithm.after)?.contents)
}

/// Whether the list of entries of a passing CRL, given by its contents, has an
/// entry with this serial.
pub(crate) fn lists(list: &[u8], serial: &[u8]) -> bool {
    let last = serial.last();
    let mut rest = list;
    while let Some(entry) = split(rest) {
        if let Some(number) = split(entry.contents) {
            // The last octet first: serials mostly differ there.
            if number.contents.last() == last && number.contents == serial {
                return true;
            }
        }
        rest = entry.after;
    }
    false
}
