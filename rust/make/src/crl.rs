//! CRLs.

use crate::certificate;
use crate::der::{around, contents, element, integer, members, sequence, SEQUENCE};
use crate::envelope::{algorithm, rsa_algorithm, Envelope};
use crate::extension::{self, known, Extension, AUTHORITY_KEY_ID, CRL_NUMBER};
use crate::name;
use crate::random::Random;
use crate::time;

/// What a good CRL says.
#[derive(Clone, Debug)]
pub struct Parameters {
    /// A whole name.
    pub issuer: Vec<u8>,
    /// YYYYMMDDHHMMSS.
    pub this_update: u64,
    pub next_update: u64,
    /// Contents of the serials that it lists.
    pub serials: Vec<Vec<u8>>,
    pub authority_key_id: Vec<u8>,
}

impl Parameters {
    /// Those of a typical CRL of country UT with this many entries.
    pub fn typical(entries: usize) -> Parameters {
        Parameters {
            issuer: name::name(*b"UT", "CSCA"),
            this_update: 20240201000000,
            next_update: 20240501000000,
            serials: (0..entries).map(|entry| vec![0x2A, (entry >> 8) as u8, entry as u8, 0x11]).collect(),
            authority_key_id: vec![1; 20],
        }
    }
}

/// A CRL, each part a whole element as it is written.
#[derive(Clone, Debug)]
pub struct Crl {
    pub letters: [u8; 2],
    pub version: Vec<u8>,
    pub algorithm: Vec<u8>,
    pub issuer: Vec<u8>,
    pub this_update: Vec<u8>,
    pub next_update: Vec<u8>,
    /// The entries; no list if there is none.
    pub entries: Vec<Vec<u8>>,
    /// The list, if it is not to be made of the entries.
    pub list: Option<Vec<u8>>,
    pub extensions: Vec<Extension>,
    pub envelope: Envelope,
}

/// An entry: serial, time, and extensions if there are any.
pub fn entry(serial: &[u8], moment: &[u8], extensions: &[Extension]) -> Vec<u8> {
    if extensions.is_empty() {
        sequence(&[&integer(serial), moment])
    } else {
        sequence(&[&integer(serial), moment, &extension::list(extensions)])
    }
}

/// A CRL that keeps every rule, with these serials listed behind its own.
pub fn longer(item: &[u8], serials: &[Vec<u8>]) -> Vec<u8> {
    let revoked = time::time(20230704101112);
    let more: Vec<_> = serials.iter().map(|serial| entry(serial, &revoked, &[])).collect();
    let outer = members(item);
    // Version, algorithm, issuer and two times; then a list, or none, and the extensions.
    let tbs = members(outer[0]);
    let (before, after) = tbs.split_at(5);
    let own = if after[0][0] == SEQUENCE { contents(after[0]) } else { &[] };
    let list = around(SEQUENCE, &[own, &more.concat()]);
    let last = after[after.len() - 1];
    sequence(&[&sequence(&[before, &[&list, last]].concat()), outer[1], outer[2]])
}

impl Crl {
    /// A CRL that keeps every rule, for parameters that do.
    pub fn new(parameters: &Parameters) -> Crl {
        let revoked = time::time(20230704101112);
        Crl {
            letters: name::letters_in(&parameters.issuer),
            version: vec![2, 1, 1],
            algorithm: algorithm(),
            issuer: parameters.issuer.clone(),
            this_update: time::time(parameters.this_update),
            next_update: time::time(parameters.next_update),
            entries: parameters.serials.iter().map(|serial| entry(serial, &revoked, &[])).collect(),
            list: None,
            extensions: vec![
                Extension::new(&AUTHORITY_KEY_ID, false, &extension::authority_key_id(&parameters.authority_key_id)),
                Extension::new(&CRL_NUMBER, false, &[2, 1, 7]),
            ],
            envelope: Envelope::good(),
        }
    }

    /// A typical CRL with this many entries.
    pub fn typical(entries: usize) -> Crl {
        Crl::new(&Parameters::typical(entries))
    }

    /// A CRL that keeps every rule, its parts as they come.
    pub fn varied(random: &mut Random) -> Crl {
        let letters = name::letters(random);
        let (first, last) = *random.pick(&[(1950, 2049), (2015, 2040), (2045, 2060), (2050, 9999), (2090, 2110)]);
        let (one, other) = (time::moment(random, first, last), time::moment(random, first, last));
        let other = if random.percent(5) { one } else { other };
        let mut made = Crl::new(&Parameters {
            issuer: name::varied(random, letters),
            this_update: one.min(other),
            next_update: one.max(other),
            serials: Vec::new(),
            authority_key_id: random.octets(20),
        });
        let most = if random.percent(3) { 200 } else { 8 };
        for _ in 0..random.below(most) {
            let entry = varied_entry(random);
            made.entries.push(entry);
        }
        if random.percent(20) {
            made.algorithm = rsa_algorithm();
            made.envelope.outer_algorithm = made.algorithm.clone();
        }
        let from = random.below(1000);
        for number in 0..random.below(3) {
            let stranger = extension::stranger(random, from + number);
            made.extensions.push(stranger);
        }
        if random.percent(10) {
            // Its form is not judged in a CRL.
            made.extensions[0].value = random.octets(5);
        }
        random.shuffle(&mut made.extensions);
        made
    }

    /// The whole item.
    pub fn encode(&self) -> Vec<u8> {
        let list = match &self.list {
            Some(whole) => whole.clone(),
            None if self.entries.is_empty() => Vec::new(),
            None => element(SEQUENCE, &self.entries.concat()),
        };
        let parts: [&[u8]; 6] =
            [&self.version, &self.algorithm, &self.issuer, &self.this_update, &self.next_update, &list];
        self.envelope.around(&parts, 0xA0, &self.extensions)
    }
}

/// An entry with any INTEGER, a good time, and sometimes extensions, which may
/// be none or doubled.
fn varied_entry(random: &mut Random) -> Vec<u8> {
    let serial = match random.below(10) {
        0 => vec![0],
        1 => vec![0x80],
        2 => vec![0x7F; 30],
        _ => certificate::serial(random),
    };
    let moment = time::time(time::moment(random, 2000, 2055));
    match random.below(12) {
        0 => sequence(&[&integer(&serial), &moment, &[0x30, 0]]),
        1 => {
            let reason = Extension::new(&known(21), false, &[10, 1, 1]);
            entry(&serial, &moment, &[reason.clone(), reason])
        }
        2 => entry(&serial, &moment, &[Extension::new(&known(21), false, &[10, 1, 1])]),
        _ => entry(&serial, &moment, &[]),
    }
}
