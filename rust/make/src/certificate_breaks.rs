//! Every rule of the certificate profile, broken alone in several ways.

use crate::certificate::{Certificate, ANCHOR, LINK, ROLES, SIGNER};
use crate::der::{element, integer, nested, octet_string, sequence, SEQUENCE};
use crate::envelope::rsa_algorithm;
use crate::extension::{
    self, find, known, remove, strange_oid, Extension, AUTHORITY_KEY_ID, BASIC_CONSTRAINTS, DOCUMENT_TYPES, KEY_USAGE,
    SUBJECT_KEY_ID,
};
use crate::name;
use crate::random::Random;
use crate::time;
use crate::Break;

type Way = Break<Certificate>;

const ALL: &[u64] = &ROLES;
const AUTHORITIES: &[u64] = &[ANCHOR, LINK];
const SIGNERS: &[u64] = &[SIGNER];
const SIGNED: &[u64] = &[LINK, SIGNER];

const fn way(rule: u64, what: &'static str, roles: &'static [u64], apply: fn(&mut Certificate, &mut Random)) -> Way {
    Break { rule, what, roles, apply }
}

/// All ways, by rule.
pub const BREAKS: &[&[Way]] = &[
    SHAPE,
    SHAPE_OF_PARTS,
    VERSION,
    SERIAL,
    ALGORITHM,
    COUNTRY,
    UNIQUE_IDS,
    TIMES,
    EXTENSIONS,
    USAGE,
    CONSTRAINTS,
    SUBJECT_KEY,
    AUTHORITY_KEY,
    FOUR,
    TYPES,
    CRITICAL,
];

/// The ways that a role has.
pub fn ways(role: u64) -> Vec<&'static Way> {
    BREAKS.iter().flat_map(|ways| ways.iter()).filter(|way| way.roles.contains(&role)).collect()
}

/// Changes the identifier of an element that is there.
pub(crate) fn tag(element: &mut [u8], id: u8) {
    if let Some(first) = element.first_mut() {
        *first = id;
    }
}

const SHAPE: &[Way] = &[
    way(1, "outermost an application element", ALL, |c, _| c.envelope.outermost_tag = 0x71),
    way(1, "tbs an application element", ALL, |c, _| c.envelope.tbs_tag = 0x71),
    way(1, "tbs an OCTET STRING", ALL, |c, _| c.envelope.tbs_tag = 4),
    way(1, "no version", ALL, |c, _| c.version.clear()),
    way(1, "version empty", ALL, |c, _| c.version = vec![0xA0, 0]),
    way(1, "version twice", ALL, |c, _| c.version = vec![0xA0, 6, 2, 1, 2, 2, 1, 2]),
    way(1, "version no INTEGER", ALL, |c, _| c.version = vec![0xA0, 3, 4, 1, 2]),
    way(1, "version bare", ALL, |c, _| c.version = vec![2, 1, 2]),
    way(1, "version in A1", ALL, |c, _| c.version = vec![0xA1, 3, 2, 1, 2]),
    way(1, "version in 80", ALL, |c, _| c.version = vec![0x80, 3, 2, 1, 2]),
    way(1, "no serial", ALL, |c, _| c.serial.clear()),
    way(1, "serial an OCTET STRING", ALL, |c, _| tag(&mut c.serial, 4)),
    way(1, "no inner algorithm", ALL, |c, _| c.algorithm.clear()),
    way(1, "inner algorithm a SET", ALL, |c, _| c.algorithm = vec![0x31, 0]),
    way(1, "inner algorithm a NULL", ALL, |c, _| c.algorithm = vec![5, 0]),
    way(1, "no outer algorithm", ALL, |c, _| c.envelope.outer_algorithm.clear()),
    way(1, "outer algorithm an application element", ALL, |c, _| tag(&mut c.envelope.outer_algorithm, 0x71)),
    way(1, "signature an OCTET STRING", ALL, |c, _| tag(&mut c.envelope.signature, 4)),
    way(1, "no signature", ALL, |c, _| c.envelope.signature.clear()),
    way(1, "more after the signature", ALL, |c, _| c.envelope.after_signature = vec![5, 0]),
    way(1, "more after the extensions", ALL, |c, _| c.envelope.after_extensions = vec![0xA4, 0]),
    way(1, "extensions twice", ALL, |c, _| c.envelope.after_extensions = vec![0xA3, 2, 0x30, 0]),
    way(1, "an 81 after the extensions", ALL, |c, _| c.envelope.after_extensions = vec![0x81, 1, 0]),
    way(1, "82 before 81", ALL, |c, _| c.unique_ids = vec![0x82, 1, 0, 0x81, 1, 0]),
    way(1, "81 twice", ALL, |c, _| c.unique_ids = vec![0x81, 1, 0, 0x81, 1, 0]),
    way(1, "82 twice", ALL, |c, _| c.unique_ids = vec![0x82, 1, 0, 0x82, 1, 0]),
    way(1, "A1", ALL, |c, _| c.unique_ids = vec![0xA1, 2, 5, 0]),
    way(1, "A2", ALL, |c, _| c.unique_ids = vec![0xA2, 0]),
    way(1, "83", ALL, |c, _| c.unique_ids = vec![0x83, 0]),
    way(1, "a NULL after the key", ALL, |c, _| c.unique_ids = vec![5, 0]),
];

const SHAPE_OF_PARTS: &[Way] = &[
    way(1, "issuer of a broken shape", ALL, |c, r| c.issuer = r.pick(name::BAD_SHAPE)(c.letters)),
    way(1, "subject of a broken shape", ALL, |c, r| c.subject = r.pick(name::BAD_SHAPE)(c.letters)),
    way(1, "no key", ALL, |c, _| c.key.clear()),
    way(1, "key an OCTET STRING", ALL, |c, _| c.key = vec![4, 0]),
    way(1, "key a SET", ALL, |c, _| c.key = vec![0x31, 0]),
    way(1, "one time", ALL, |c, _| c.validity = Some(element(SEQUENCE, &c.start))),
    way(1, "no time", ALL, |c, _| c.validity = Some(vec![0x30, 0])),
    way(1, "three times", ALL, |c, _| c.validity = Some(sequence(&[&c.start, &c.end, &c.end]))),
    way(1, "times in an application element", ALL, |c, _| {
        c.validity = Some(element(0x71, &[&c.start[..], &c.end].concat()))
    }),
    way(1, "start of another tag", ALL, |c, r| tag(&mut c.start, *r.pick(&[0x16, 0x19, 0x80, 4]))),
    way(1, "end of another tag", ALL, |c, r| tag(&mut c.end, *r.pick(&[0x16, 0x19, 0x80, 4]))),
    way(1, "no validity", ALL, |c, _| c.validity = Some(Vec::new())),
    way(1, "no A3", ALL, |c, _| c.envelope.extensions_block = Some(Vec::new())),
    way(1, "A3 empty", ALL, |c, _| c.envelope.extensions_block = Some(vec![0xA3, 0])),
    way(1, "A3 around two", ALL, |c, _| {
        c.envelope.extensions_block = Some(element(0xA3, &[extension::list(&c.extensions), vec![0x30, 0]].concat()))
    }),
    way(1, "A3 around a SET", ALL, |c, _| c.envelope.extensions_block = Some(vec![0xA3, 2, 0x31, 0])),
    way(1, "A4 for A3", ALL, |c, _| c.envelope.extensions_block = Some(element(0xA4, &extension::list(&c.extensions)))),
    way(1, "a bare list of extensions", ALL, |c, _| c.envelope.extensions_block = Some(extension::list(&c.extensions))),
    way(1, "an extension of a broken shape", ALL, |c, r| {
        let mut broken = Extension::new(&[], false, &[]);
        broken.whole = Some(r.pick(extension::BAD_SHAPE)());
        let at = r.below(c.extensions.len() + 1);
        c.extensions.insert(at, broken);
    }),
];

const VERSION: &[Way] = &[
    way(2, "version 0", ALL, |c, _| c.version = vec![0xA0, 3, 2, 1, 0]),
    way(2, "version 1", ALL, |c, _| c.version = vec![0xA0, 3, 2, 1, 1]),
    way(2, "version 3", ALL, |c, _| c.version = vec![0xA0, 3, 2, 1, 3]),
    way(2, "version -1", ALL, |c, _| c.version = vec![0xA0, 3, 2, 1, 0xFF]),
    way(2, "version 258", ALL, |c, _| c.version = vec![0xA0, 4, 2, 2, 1, 2]),
    way(2, "version of 9 octets", ALL, |c, _| c.version = vec![0xA0, 11, 2, 9, 1, 0, 0, 0, 0, 0, 0, 0, 2]),
];

const SERIAL: &[Way] = &[
    way(3, "serial 0", ALL, |c, _| c.serial = integer(&[0])),
    way(3, "serial -1", ALL, |c, _| c.serial = integer(&[0xFF])),
    way(3, "serial -128", ALL, |c, _| c.serial = integer(&[0x80])),
    way(3, "serial of 21 octets", ALL, |c, _| c.serial = integer(&[0x11; 21])),
    way(3, "serial of 20 octets after 00", ALL, |c, _| {
        c.serial = integer(&[&[0][..], &[0xAA; 20]].concat());
    }),
    way(3, "serial of 20 octets, negative", ALL, |c, _| c.serial = integer(&[0xAA; 20])),
    way(3, "serial of 200 octets", ALL, |c, _| c.serial = integer(&[0x11; 200])),
];

const ALGORITHM: &[Way] = &[
    way(4, "outer algorithm empty", ALL, |c, _| {
        c.envelope.outer_algorithm = vec![0x30, 0];
        c.algorithm = rsa_algorithm();
    }),
    way(4, "another outer algorithm", ALL, |c, _| {
        c.envelope.outer_algorithm = rsa_algorithm();
        c.algorithm = vec![0x30, 2, 5, 0];
    }),
    way(4, "last octet of the outer algorithm", ALL, |c, _| {
        c.algorithm = rsa_algorithm();
        c.envelope.outer_algorithm = rsa_algorithm();
        c.envelope.outer_algorithm[12] ^= 1;
    }),
    way(4, "outer algorithm with parameters", ALL, |c, _| {
        c.algorithm = vec![0x30, 3, 6, 1, 0x2A];
        c.envelope.outer_algorithm = vec![0x30, 5, 6, 1, 0x2A, 5, 0];
    }),
];

const COUNTRY: &[Way] = &[
    way(5, "no good country in the issuer", ALL, |c, r| c.issuer = r.pick(name::BAD_COUNTRY)(c.letters)),
    way(5, "no good country in the subject", ALL, |c, r| c.subject = r.pick(name::BAD_COUNTRY)(c.letters)),
    way(5, "no good country in both", ALL, |c, r| {
        c.issuer = r.pick(name::BAD_COUNTRY)(c.letters);
        c.subject = c.issuer.clone();
    }),
    way(5, "another first letter", ALL, |c, _| {
        c.subject = name::name([if c.letters[0] == b'A' { b'B' } else { b'A' }, c.letters[1]], "CSCA")
    }),
    way(5, "another second letter", ALL, |c, _| {
        c.subject = name::name([c.letters[0], if c.letters[1] == b'Z' { b'Y' } else { b'Z' }], "CSCA")
    }),
];

const UNIQUE_IDS: &[Way] = &[
    way(6, "81", ALL, |c, _| c.unique_ids = vec![0x81, 2, 0, 1]),
    way(6, "82", ALL, |c, _| c.unique_ids = vec![0x82, 2, 0, 1]),
    way(6, "81 and 82", ALL, |c, _| c.unique_ids = vec![0x81, 0, 0x82, 1, 0]),
];

const TIMES: &[Way] = &[
    way(7, "start of a wrong form", ALL, |c, r| c.start = time::bad(r)),
    way(7, "end of a wrong form", ALL, |c, r| c.end = time::bad(r)),
    way(7, "start a second after end", ALL, |c, _| {
        c.start = time::utc("240301120001Z");
        c.end = time::utc("240301120000Z");
    }),
    way(7, "start 2049, end 1950", ALL, |c, _| {
        c.start = time::utc("490101000000Z");
        c.end = time::utc("500101000000Z");
    }),
    way(7, "start 2050, end 2049", ALL, |c, _| {
        c.start = time::generalized("20500101000000Z");
        c.end = time::utc("491231235959Z");
    }),
];

const EXTENSIONS: &[Way] = &[
    way(8, "no extension", ALL, |c, _| c.extensions.clear()),
    way(8, "an extension twice", ALL, |c, r| {
        if !c.extensions.is_empty() {
            let twice = r.pick(&c.extensions).clone();
            let at = r.below(c.extensions.len() + 1);
            c.extensions.insert(at, twice);
        }
    }),
    way(8, "a stranger twice, other contents", ALL, |c, r| {
        c.extensions.insert(0, Extension::new(&strange_oid(5), false, b"one"));
        c.extensions.push(Extension::new(&strange_oid(5), r.percent(50), b"another"));
    }),
    way(8, "among many strangers one twice", ALL, |c, r| {
        for number in 2000..2030 {
            c.extensions.push(extension::stranger(r, number));
        }
        let twice = 2000 + r.below(30);
        c.extensions.push(extension::stranger(r, twice));
    }),
    way(8, "among many strangers keyUsage twice", ALL, |c, r| {
        for number in 2000..2030 {
            c.extensions.push(extension::stranger(r, number));
        }
        c.extensions.push(Extension::new(&KEY_USAGE, true, &[]));
        c.extensions.push(Extension::new(&KEY_USAGE, true, &[]));
    }),
];

/// Changes the value of an extension that is there.
fn value(c: &mut Certificate, oid: &[u8], value: &[u8]) {
    if let Some(found) = find(&mut c.extensions, oid) {
        found.value = value.to_vec();
    }
}

/// Turns an extension's critical mark.
fn turn(c: &mut Certificate, oid: &[u8], critical: bool) {
    if let Some(found) = find(&mut c.extensions, oid) {
        found.critical = critical;
    }
}

const USAGE: &[Way] = &[
    way(9, "no keyUsage", ALL, |c, _| remove(&mut c.extensions, &KEY_USAGE)),
    way(9, "keyUsage not critical", ALL, |c, _| turn(c, &KEY_USAGE, false)),
    way(9, "the other keyUsage", AUTHORITIES, |c, _| value(c, &KEY_USAGE, &[3, 2, 7, 0x80])),
    way(9, "the other keyUsage", SIGNERS, |c, _| value(c, &KEY_USAGE, &[3, 2, 1, 6])),
    way(9, "keyUsage empty", ALL, |c, _| value(c, &KEY_USAGE, &[])),
    way(9, "keyUsage no bits", ALL, |c, _| value(c, &KEY_USAGE, &[3, 1, 0])),
    way(9, "keyUsage with one more bit", AUTHORITIES, |c, _| value(c, &KEY_USAGE, &[3, 2, 1, 0x86])),
    way(9, "keyUsage with one more bit", SIGNERS, |c, _| value(c, &KEY_USAGE, &[3, 2, 6, 0xC0])),
    way(9, "keyUsage with zero bits", ALL, |c, _| value(c, &KEY_USAGE, &[3, 2, 0, 6])),
    way(9, "octets after keyUsage", AUTHORITIES, |c, _| value(c, &KEY_USAGE, &[3, 2, 1, 6, 0])),
    way(9, "octets after keyUsage", SIGNERS, |c, _| value(c, &KEY_USAGE, &[3, 2, 7, 0x80, 0])),
    way(9, "keyUsage an OCTET STRING", AUTHORITIES, |c, _| value(c, &KEY_USAGE, &[4, 2, 1, 6])),
];

const CONSTRAINTS: &[Way] = &[
    way(10, "no basicConstraints", AUTHORITIES, |c, _| remove(&mut c.extensions, &BASIC_CONSTRAINTS)),
    way(10, "basicConstraints not critical", AUTHORITIES, |c, _| turn(c, &BASIC_CONSTRAINTS, false)),
    way(10, "path length 1", AUTHORITIES, |c, _| value(c, &BASIC_CONSTRAINTS, &[0x30, 6, 1, 1, 0xFF, 2, 1, 1])),
    way(10, "no path length", AUTHORITIES, |c, _| value(c, &BASIC_CONSTRAINTS, &[0x30, 3, 1, 1, 0xFF])),
    way(10, "basicConstraints empty", AUTHORITIES, |c, _| value(c, &BASIC_CONSTRAINTS, &[0x30, 0])),
    way(10, "basicConstraints without contents", AUTHORITIES, |c, _| value(c, &BASIC_CONSTRAINTS, &[])),
    way(10, "not an authority", AUTHORITIES, |c, _| value(c, &BASIC_CONSTRAINTS, &[0x30, 6, 1, 1, 0, 2, 1, 0])),
    way(10, "octets after basicConstraints", AUTHORITIES, |c, _| {
        value(c, &BASIC_CONSTRAINTS, &[0x30, 6, 1, 1, 0xFF, 2, 1, 0, 0])
    }),
    way(10, "basicConstraints there", SIGNERS, |c, _| {
        c.extensions.push(Extension::new(&BASIC_CONSTRAINTS, false, &[0x30, 0]))
    }),
    way(10, "basicConstraints there, critical", SIGNERS, |c, _| {
        c.extensions.push(Extension::new(&BASIC_CONSTRAINTS, true, &[0x30, 6, 1, 1, 0xFF, 2, 1, 0]))
    }),
];

/// Puts a subjectKeyIdentifier with this value.
fn subject_key(c: &mut Certificate, contents: &[u8]) {
    remove(&mut c.extensions, &SUBJECT_KEY_ID);
    c.extensions.push(Extension::new(&SUBJECT_KEY_ID, false, contents));
}

/// Puts an authorityKeyIdentifier with this value.
fn authority_key(c: &mut Certificate, contents: &[u8]) {
    remove(&mut c.extensions, &AUTHORITY_KEY_ID);
    c.extensions.push(Extension::new(&AUTHORITY_KEY_ID, false, contents));
}

const SUBJECT_KEY: &[Way] = &[
    way(11, "no subject key identifier", AUTHORITIES, |c, _| remove(&mut c.extensions, &SUBJECT_KEY_ID)),
    way(11, "subject key identifier critical", ALL, |c, _| {
        subject_key(c, &octet_string(b"id"));
        turn(c, &SUBJECT_KEY_ID, true);
    }),
    way(11, "subject key identifier without contents", ALL, |c, _| subject_key(c, &[])),
    way(11, "subject key identifier bare", ALL, |c, _| subject_key(c, b"identifier")),
    way(11, "subject key identifier a BIT STRING", ALL, |c, _| subject_key(c, &[3, 2, 0, 1])),
    way(11, "subject key identifier in a SEQUENCE", ALL, |c, _| subject_key(c, &[0x30, 3, 4, 1, 1])),
    way(11, "subject key identifier twice", ALL, |c, _| subject_key(c, &[4, 1, 1, 4, 1, 1])),
    way(11, "octets after subject key identifier", ALL, |c, _| subject_key(c, &[4, 1, 1, 0])),
    way(11, "subject key identifier cut", ALL, |c, _| subject_key(c, &[4, 2, 1])),
    way(11, "subject key identifier of a long length", ALL, |c, _| subject_key(c, &[4, 0x81, 2, 1, 1])),
    way(11, "subject key identifier constructed", ALL, |c, _| subject_key(c, &[0x24, 3, 4, 1, 1])),
];

const AUTHORITY_KEY: &[Way] = &[
    way(11, "no authority key identifier", SIGNED, |c, _| remove(&mut c.extensions, &AUTHORITY_KEY_ID)),
    way(11, "authority key identifier critical", ALL, |c, _| {
        authority_key(c, &extension::authority_key_id(b"id"));
        turn(c, &AUTHORITY_KEY_ID, true);
    }),
    way(11, "authority key identifier without contents", ALL, |c, _| authority_key(c, &[])),
    way(11, "authority key identifier an empty SEQUENCE", ALL, |c, _| authority_key(c, &[0x30, 0])),
    way(11, "authority key identifier a SET", ALL, |c, _| authority_key(c, &[0x31, 3, 0x80, 1, 1])),
    way(11, "authority key identifier bare", ALL, |c, _| authority_key(c, &[0x80, 1, 1])),
    way(11, "first member 81", ALL, |c, _| authority_key(c, &[0x30, 6, 0x81, 1, 1, 0x80, 1, 1])),
    way(11, "first member A0", ALL, |c, _| authority_key(c, &[0x30, 4, 0xA0, 2, 5, 0])),
    way(11, "first member an OCTET STRING", ALL, |c, _| authority_key(c, &[0x30, 3, 4, 1, 1])),
    way(11, "octets after authority key identifier", ALL, |c, _| authority_key(c, &[0x30, 3, 0x80, 1, 1, 0])),
    way(11, "first member past its parent", ALL, |c, _| authority_key(c, &[0x30, 3, 0x80, 2, 1, 1])),
    way(11, "second member broken", ALL, |c, _| authority_key(c, &[0x30, 6, 0x80, 1, 1, 1, 1, 1])),
    way(11, "second member cut", ALL, |c, _| authority_key(c, &[0x30, 4, 0x80, 1, 1, 0x82])),
    way(11, "authority key identifier too deep", ALL, |c, _| {
        authority_key(c, &sequence(&[&[0x80, 1, 1], &nested(16)]))
    }),
    way(11, "authority key identifier of too many elements", ALL, |c, _| {
        authority_key(c, &sequence(&[&[0x80, 0], &[5, 0].repeat(4_095)]))
    }),
];

const FOUR: &[Way] = &[
    way(12, "no 2.5.29.16", ALL, |c, _| remove(&mut c.extensions, &known(16))),
    way(12, "no 2.5.29.17", ALL, |c, _| remove(&mut c.extensions, &known(17))),
    way(12, "no 2.5.29.18", ALL, |c, _| remove(&mut c.extensions, &known(18))),
    way(12, "no 2.5.29.31", ALL, |c, _| remove(&mut c.extensions, &known(31))),
    way(12, "2.5.29.16 critical", ALL, |c, _| turn(c, &known(16), true)),
    way(12, "2.5.29.17 critical", ALL, |c, _| turn(c, &known(17), true)),
    way(12, "2.5.29.18 critical", ALL, |c, _| turn(c, &known(18), true)),
    way(12, "2.5.29.31 critical", ALL, |c, _| turn(c, &known(31), true)),
];

const TYPES: &[Way] = &[
    way(13, "no document types", SIGNERS, |c, _| remove(&mut c.extensions, &DOCUMENT_TYPES)),
    way(13, "document types critical", SIGNERS, |c, _| turn(c, &DOCUMENT_TYPES, true)),
    way(13, "document types without contents", SIGNERS, |c, _| value(c, &DOCUMENT_TYPES, &[])),
    way(13, "document types empty", SIGNERS, |c, _| value(c, &DOCUMENT_TYPES, &[0x30, 0])),
    way(13, "no types", SIGNERS, |c, _| value(c, &DOCUMENT_TYPES, &extension::document_types(&[]))),
    way(13, "an empty type", SIGNERS, |c, _| value(c, &DOCUMENT_TYPES, &extension::document_types(&["", "P"]))),
    way(13, "types out of order", SIGNERS, |c, _| value(c, &DOCUMENT_TYPES, &extension::document_types(&["ID", "P"]))),
    way(13, "the last type out of order", SIGNERS, |c, _| {
        value(c, &DOCUMENT_TYPES, &extension::document_types(&["A", "P", "V", "ID", "AC"]))
    }),
    way(13, "a type of three", SIGNERS, |c, _| value(c, &DOCUMENT_TYPES, &extension::document_types(&["P", "PAS"]))),
    way(13, "version 1", SIGNERS, |c, _| value(c, &DOCUMENT_TYPES, &[0x30, 8, 2, 1, 1, 0x31, 3, 0x13, 1, b'P'])),
    way(13, "version 00 00", SIGNERS, |c, _| value(c, &DOCUMENT_TYPES, &[0x30, 9, 2, 2, 0, 0, 0x31, 3, 0x13, 1, b'P'])),
    way(13, "no version", SIGNERS, |c, _| value(c, &DOCUMENT_TYPES, &[0x30, 5, 0x31, 3, 0x13, 1, b'P'])),
    way(13, "no SET", SIGNERS, |c, _| value(c, &DOCUMENT_TYPES, &[0x30, 3, 2, 1, 0])),
    way(13, "types in a SEQUENCE", SIGNERS, |c, _| {
        value(c, &DOCUMENT_TYPES, &[0x30, 8, 2, 1, 0, 0x30, 3, 0x13, 1, b'P'])
    }),
    way(13, "types outside in a SET", SIGNERS, |c, _| {
        value(c, &DOCUMENT_TYPES, &[0x31, 8, 2, 1, 0, 0x31, 3, 0x13, 1, b'P'])
    }),
    way(13, "a type of another string", SIGNERS, |c, _| {
        value(c, &DOCUMENT_TYPES, &[0x30, 8, 2, 1, 0, 0x31, 3, 0x0C, 1, b'P'])
    }),
    way(13, "one member more", SIGNERS, |c, _| {
        value(c, &DOCUMENT_TYPES, &[0x30, 10, 2, 1, 0, 0x31, 3, 0x13, 1, b'P', 5, 0])
    }),
    way(13, "octets after document types", SIGNERS, |c, _| {
        value(c, &DOCUMENT_TYPES, &[0x30, 8, 2, 1, 0, 0x31, 3, 0x13, 1, b'P', 0])
    }),
    way(13, "too many types", SIGNERS, |c, _| {
        let types = element(0x31, &[0x13, 1, b'P'].repeat(4_094));
        value(c, &DOCUMENT_TYPES, &sequence(&[&[2, 1, 0], &types]));
    }),
];

const CRITICAL: &[Way] = &[
    way(14, "a critical stranger", ALL, |c, r| {
        let oid = strange_oid(4000 + r.below(4));
        remove(&mut c.extensions, &oid);
        c.extensions.push(Extension::new(&oid, true, b"x"))
    }),
    way(14, "certificatePolicies critical", ALL, |c, _| {
        c.extensions.insert(0, Extension::new(&known(32), true, &[0x30, 0]))
    }),
    way(14, "extKeyUsage critical", ALL, |c, _| c.extensions.push(Extension::new(&known(37), true, &[0x30, 0]))),
    way(14, "cRLNumber critical", ALL, |c, _| c.extensions.push(Extension::new(&known(20), true, &[2, 1, 0]))),
    way(14, "document types critical", AUTHORITIES, |c, _| {
        c.extensions.push(Extension::new(&DOCUMENT_TYPES, true, b"not read"))
    }),
];
