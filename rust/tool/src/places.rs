//! The places of an image, each judged by the library for its kind.

use vrbolist::{Certificate, Crl, Entry, Refusal};

pub enum Told<'a> {
    Certificate(Certificate<'a>),
    Crl(Crl<'a>),
    Refused(Refusal),
}

pub struct Place<'a> {
    pub number: u64,
    pub entry: Entry<'a>,
    pub told: Told<'a>,
}

impl<'a> Place<'a> {
    pub fn certificate(&self) -> Option<&Certificate<'a>> {
        match &self.told {
            Told::Certificate(found) => Some(found),
            _ => None,
        }
    }

    pub fn crl(&self) -> Option<&Crl<'a>> {
        match &self.told {
            Told::Crl(found) => Some(found),
            _ => None,
        }
    }

    pub fn enabled(&self) -> bool {
        self.entry.kind != 1 || self.entry.flags == 1
    }
}

pub fn all(image: &[u8], entries: u64) -> Vec<Place<'_>> {
    (0..entries).filter_map(|number| one(image, number)).collect()
}

fn one(image: &[u8], number: u64) -> Option<Place<'_>> {
    let entry = vrbolist::entry(image, number).ok()?;
    Some(Place { number, entry, told: judge(entry.item, entry.kind) })
}

/// Kinds 1 to 3 are the roles of certificates, 4 is a CRL.
pub fn judge(item: &[u8], kind: u64) -> Told<'_> {
    let told = match kind {
        4 => vrbolist::crl(item).map(Told::Crl),
        role => vrbolist::certificate(item, role).map(Told::Certificate),
    };
    told.unwrap_or_else(Told::Refused)
}

pub fn kind_name(kind: u64) -> &'static str {
    match kind {
        1 => "anchor",
        2 => "link",
        3 => "signer",
        4 => "crl",
        _ => "unknown",
    }
}

pub fn kind_number(name: &str) -> Option<u64> {
    (1..=4).find(|kind| kind_name(*kind) == name)
}
