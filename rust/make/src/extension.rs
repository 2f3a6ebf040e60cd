//! Extensions of certificates and CRLs.

use crate::der::{around, element, octet_string, oid, push_header, sequence, set, OCTET_STRING, OID, SEQUENCE};
use crate::random::Random;

/// The OID 2.5.29.x.
pub const fn known(last: u8) -> [u8; 3] {
    [0x55, 0x1D, last]
}

pub const SUBJECT_KEY_ID: [u8; 3] = known(14);
pub const KEY_USAGE: [u8; 3] = known(15);
pub const BASIC_CONSTRAINTS: [u8; 3] = known(19);
pub const CRL_NUMBER: [u8; 3] = known(20);
pub const AUTHORITY_KEY_ID: [u8; 3] = known(35);
pub const DOCUMENT_TYPES: [u8; 7] = [0x67, 0x81, 0x08, 0x01, 0x01, 0x06, 0x02];

/// One extension, each part as it is written.
#[derive(Clone, Debug)]
pub struct Extension {
    /// Contents of the OID.
    pub oid: Vec<u8>,
    pub critical: bool,
    /// Contents of the OCTET STRING.
    pub value: Vec<u8>,
    /// The whole extension, if it is not to be made of the others.
    pub whole: Option<Vec<u8>>,
}

impl Extension {
    pub fn new(oid: &[u8], critical: bool, value: &[u8]) -> Extension {
        Extension { oid: oid.to_vec(), critical, value: value.to_vec(), whole: None }
    }

    /// Appends the extension.
    pub fn push(&self, out: &mut Vec<u8>) {
        if let Some(whole) = &self.whole {
            return out.extend_from_slice(whole);
        }
        let value = self.value.len();
        let header = if value < 0x80 {
            2
        } else if value < 0x100 {
            3
        } else {
            4
        };
        let length = self.oid.len() + 2 + if self.critical { 3 } else { 0 } + header + value;
        push_header(out, SEQUENCE, length);
        push_header(out, OID, self.oid.len());
        out.extend_from_slice(&self.oid);
        if self.critical {
            out.extend([0x01, 0x01, 0xFF]);
        }
        push_header(out, OCTET_STRING, value);
        out.extend_from_slice(&self.value);
    }
}

/// A SEQUENCE of extensions.
pub fn list(extensions: &[Extension]) -> Vec<u8> {
    let mut contents = Vec::with_capacity(512);
    for extension in extensions {
        extension.push(&mut contents);
    }
    element(SEQUENCE, &contents)
}

/// The place of an extension in a list.
pub fn find<'a>(extensions: &'a mut [Extension], oid: &[u8]) -> Option<&'a mut Extension> {
    extensions.iter_mut().find(|extension| extension.oid == oid)
}

/// Takes an extension out of a list.
pub fn remove(extensions: &mut Vec<Extension>, oid: &[u8]) {
    extensions.retain(|extension| extension.oid != oid);
}

/// The value of subjectKeyIdentifier.
pub fn subject_key_id(id: &[u8]) -> Vec<u8> {
    octet_string(id)
}

/// The value of authorityKeyIdentifier.
pub fn authority_key_id(id: &[u8]) -> Vec<u8> {
    element(SEQUENCE, &element(0x80, id))
}

/// The value of the document type list.
pub fn document_types(types: &[&str]) -> Vec<u8> {
    let strings: Vec<u8> = types.iter().flat_map(|text| element(0x13, text.as_bytes())).collect();
    sequence(&[&[2, 1, 0], &element(0x31, &strings)])
}

/// The OID of a stranger: other numbers, other OIDs.
pub fn strange_oid(number: usize) -> Vec<u8> {
    match number % 4 {
        0 => vec![0x55, 0x1D, 64 + (number / 4 % 60) as u8],
        1 => vec![0x2A, 0x86, 0x48, 0x86, 0xF7, 0x0D, (number / 4 % 120) as u8, (number / 480 % 120) as u8],
        2 => vec![0x67, 0x81, 0x08, 0x01, 0x01, 0x06, (3 + number / 4 % 100) as u8],
        _ => vec![0x2B, (number / 4 % 120) as u8, (number / 480 % 120) as u8],
    }
}

/// An extension that no rule knows, not critical.
pub fn stranger(random: &mut Random, number: usize) -> Extension {
    let length = random.below(12);
    Extension::new(&strange_oid(number), false, &random.octets(length))
}

/// Extensions of a broken shape.
pub const BAD_SHAPE: &[fn() -> Vec<u8>] = &[
    // An explicit FALSE.
    || sequence(&[&oid(&known(54)), &[1, 1, 0], &octet_string(b"x")]),
    || sequence(&[&oid(&known(54)), &octet_string(b"x"), &[1, 1, 0xFF]]),
    || sequence(&[&oid(&known(54)), &[1, 1, 0xFF], &[1, 1, 0xFF], &octet_string(b"x")]),
    || sequence(&[&oid(&known(54))]),
    || sequence(&[&oid(&known(54)), &[1, 1, 0xFF]]),
    || sequence(&[&oid(&known(54)), &octet_string(b"x"), &octet_string(b"y")]),
    || sequence(&[&oid(&known(54)), &octet_string(b"x"), &[5, 0]]),
    || sequence(&[&oid(&known(54)), &[3, 1, 0]]),
    || sequence(&[&octet_string(b"x")]),
    || sequence(&[&[2, 1, 5], &octet_string(b"x")]),
    || sequence(&[]),
    || set(vec![oid(&known(54)), octet_string(b"x")]),
    || vec![5, 0],
    || around(0xA0, &[&oid(&known(54)), &octet_string(b"x")]),
];
