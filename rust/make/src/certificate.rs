//! Certificates of each role.

use crate::der::{bit_string, element, integer, sequence, SEQUENCE};
use crate::envelope::{algorithm, rsa_algorithm, Envelope};
use crate::extension::{self, known, Extension};
use crate::name;
use crate::random::Random;
use crate::time;

pub const ANCHOR: u64 = 1;
pub const LINK: u64 = 2;
pub const SIGNER: u64 = 3;
pub const ROLES: [u64; 3] = [ANCHOR, LINK, SIGNER];

/// What a good certificate says.
#[derive(Clone, Debug)]
pub struct Parameters {
    pub role: u64,
    /// Whole names, as `name::name` makes them.
    pub issuer: Vec<u8>,
    pub subject: Vec<u8>,
    /// Contents.
    pub serial: Vec<u8>,
    /// YYYYMMDDHHMMSS.
    pub start: u64,
    pub end: u64,
    pub subject_key_id: Option<Vec<u8>>,
    pub authority_key_id: Option<Vec<u8>>,
}

impl Parameters {
    /// Those of a typical certificate of country UT.
    pub fn typical(role: u64) -> Parameters {
        let authority = name::name(*b"UT", "CSCA");
        let subject = if role == SIGNER { name::name(*b"UT", "Signer 7") } else { authority.clone() };
        Parameters {
            role,
            issuer: authority,
            subject,
            serial: vec![0x12, 0x34, 0x56, 0x78, 0x9A, 0xBC, 0xDE, 0xF0],
            start: 20200101000000,
            end: 20301231235959,
            subject_key_id: Some(vec![role as u8; 20]),
            authority_key_id: Some(vec![1; 20]),
        }
    }
}

/// A certificate, each part a whole element as it is written.
#[derive(Clone, Debug)]
pub struct Certificate {
    pub role: u64,
    pub letters: [u8; 2],
    pub version: Vec<u8>,
    pub serial: Vec<u8>,
    pub algorithm: Vec<u8>,
    pub issuer: Vec<u8>,
    pub start: Vec<u8>,
    pub end: Vec<u8>,
    /// The SEQUENCE of times, if it is not to be made of the two.
    pub validity: Option<Vec<u8>>,
    pub subject: Vec<u8>,
    pub key: Vec<u8>,
    /// What stands between the key and the extensions.
    pub unique_ids: Vec<u8>,
    pub extensions: Vec<Extension>,
    pub envelope: Envelope,
}

/// A key of 65 octets on a named curve.
pub fn key() -> Vec<u8> {
    let named = [0x30, 0x13, 6, 7, 0x2A, 0x86, 0x48, 0xCE, 0x3D, 2, 1, 6, 8, 0x2A, 0x86, 0x48, 0xCE, 0x3D, 3, 1, 7];
    sequence(&[&named, &bit_string(&[0x04; 65])])
}

impl Certificate {
    /// A certificate that keeps every rule, for parameters that do.
    pub fn new(parameters: &Parameters) -> Certificate {
        Certificate {
            role: parameters.role,
            letters: name::letters_in(&parameters.issuer),
            version: vec![0xA0, 3, 2, 1, 2],
            serial: integer(&parameters.serial),
            algorithm: algorithm(),
            issuer: parameters.issuer.clone(),
            start: time::time(parameters.start),
            end: time::time(parameters.end),
            validity: None,
            subject: parameters.subject.clone(),
            key: key(),
            unique_ids: Vec::new(),
            extensions: extensions(parameters),
            envelope: Envelope::good(),
        }
    }

    /// A typical certificate of a role.
    pub fn typical(role: u64) -> Certificate {
        Certificate::new(&Parameters::typical(role))
    }

    /// A typical certificate whose two names are of a country.
    pub fn of_country(role: u64, country: [u8; 2]) -> Certificate {
        let names = name::name(country, "CSCA");
        Certificate::new(&Parameters { issuer: names.clone(), subject: names, ..Parameters::typical(role) })
    }

    /// A certificate that keeps every rule, its parts as they come.
    pub fn varied(random: &mut Random, role: u64) -> Certificate {
        let mut made = Certificate::new(&varied_parameters(random, role));
        if random.percent(30) {
            made.algorithm = varied_algorithm(random);
            made.envelope.outer_algorithm = made.algorithm.clone();
        }
        if random.percent(30) {
            let length = random.below(300);
            made.key = element(SEQUENCE, &element(4, &random.octets(length)));
        }
        if random.percent(10) {
            made.key = vec![0x30, 0];
        }
        if random.percent(20) {
            let length = random.below(260);
            made.envelope.signature = bit_string(&random.octets(length));
        }
        let strangers = if random.percent(3) { random.between(10, 40) } else { random.below(3) };
        let from = random.below(1000);
        for number in 0..strangers {
            let stranger = extension::stranger(random, from + number);
            made.extensions.push(stranger);
        }
        if random.percent(50) {
            random.shuffle(&mut made.extensions);
        }
        made
    }

    /// The whole item.
    pub fn encode(&self) -> Vec<u8> {
        let validity = match &self.validity {
            Some(whole) => whole.clone(),
            None => sequence(&[&self.start, &self.end]),
        };
        let parts: [&[u8]; 8] = [
            &self.version,
            &self.serial,
            &self.algorithm,
            &self.issuer,
            &validity,
            &self.subject,
            &self.key,
            &self.unique_ids,
        ];
        self.envelope.around(&parts, 0xA3, &self.extensions)
    }
}

/// The extensions of a good certificate.
fn extensions(parameters: &Parameters) -> Vec<Extension> {
    let authority = parameters.role != SIGNER;
    let mut made = Vec::with_capacity(12);
    if let Some(id) = &parameters.authority_key_id {
        made.push(Extension::new(&extension::AUTHORITY_KEY_ID, false, &extension::authority_key_id(id)));
    }
    if let Some(id) = &parameters.subject_key_id {
        made.push(Extension::new(&extension::SUBJECT_KEY_ID, false, &extension::subject_key_id(id)));
    }
    let usage: [u8; 4] = if authority { [3, 2, 1, 6] } else { [3, 2, 7, 0x80] };
    made.push(Extension::new(&extension::KEY_USAGE, true, &usage));
    if authority {
        made.push(Extension::new(&extension::BASIC_CONSTRAINTS, true, &[0x30, 6, 1, 1, 0xFF, 2, 1, 0]));
    } else {
        made.push(Extension::new(&extension::DOCUMENT_TYPES, false, &extension::document_types(&["P", "ID"])));
    }
    for (last, value) in [
        (16, &b"\x30\x22\x80\x0f20200101000000Z\x81\x0f20250101000000Z"[..]),
        (17, b"\x30\x0f\x81\x0dcsca@ut.local"),
        (18, b"\x30\x0f\x81\x0dcsca@ut.local"),
        (31, b"\x30\x1b\x30\x19\xa0\x17\xa0\x15\x86\x13http://ut.local/crl"),
    ] {
        made.push(Extension::new(&known(last), false, value));
    }
    made
}

fn varied_parameters(random: &mut Random, role: u64) -> Parameters {
    let letters = name::letters(random);
    let issuer = name::varied(random, letters);
    let subject = if random.percent(50) { issuer.clone() } else { name::varied(random, letters) };
    let (first, last) = *random.pick(&[(1950, 2049), (2015, 2040), (2045, 2060), (2050, 9999), (2090, 2110)]);
    let (one, other) = (time::moment(random, first, last), time::moment(random, first, last));
    let other = if random.percent(5) { one } else { other };
    let subject_key_id = (role != SIGNER || random.percent(50)).then(|| key_id(random));
    let authority_key_id = (role != ANCHOR || random.percent(50)).then(|| key_id(random));
    Parameters {
        role,
        issuer,
        subject,
        serial: serial(random),
        start: one.min(other),
        end: one.max(other),
        subject_key_id,
        authority_key_id,
    }
}

/// The octets of a key identifier, mostly 20.
fn key_id(random: &mut Random) -> Vec<u8> {
    let length = if random.percent(70) { 20 } else { *random.pick(&[0, 1, 8, 32, 127, 128, 200]) };
    random.octets(length)
}

/// The contents of a good serial: 1 to 20 octets, positive.
pub fn serial(random: &mut Random) -> Vec<u8> {
    let length = random.between(1, 20);
    let mut octets = random.octets(length);
    octets[0] &= 0x7F;
    if octets[0] == 0 && (length == 1 || octets[1] < 0x80) {
        octets[0] = 1;
    }
    octets
}

fn varied_algorithm(random: &mut Random) -> Vec<u8> {
    match random.below(4) {
        0 => rsa_algorithm(),
        1 => vec![0x30, 0],
        2 => sequence(&[&rsa_algorithm(), &[0xA0, 3, 2, 1, 5]]),
        _ => algorithm(),
    }
}
