//! Every rule of the CRL profile, broken alone in several ways.

use crate::certificate_breaks::tag;
use crate::crl::{entry, Crl};
use crate::der::{element, integer, sequence, SEQUENCE};
use crate::envelope::rsa_algorithm;
use crate::extension::{self, find, known, remove, strange_oid, Extension, AUTHORITY_KEY_ID, CRL_NUMBER};
use crate::name;
use crate::random::Random;
use crate::time;
use crate::Break;

type Way = Break<Crl>;

const fn way(rule: u64, what: &'static str, apply: fn(&mut Crl, &mut Random)) -> Way {
    Break { rule, what, roles: &[], apply }
}

/// All ways, by rule.
pub const BREAKS: &[&[Way]] = &[SHAPE, ENTRY_SHAPE, VERSION, ALGORITHM, COUNTRY, TIMES, LIST, EXTENSIONS, CRITICAL];

/// All ways in one list.
pub fn ways() -> Vec<&'static Way> {
    BREAKS.iter().flat_map(|ways| ways.iter()).collect()
}

const SHAPE: &[Way] = &[
    way(1, "outermost an application element", |c, _| c.envelope.outermost_tag = 0x71),
    way(1, "tbs an application element", |c, _| c.envelope.tbs_tag = 0x71),
    way(1, "tbs an OCTET STRING", |c, _| c.envelope.tbs_tag = 4),
    way(1, "no version", |c, _| c.version.clear()),
    way(1, "version in A0", |c, _| c.version = vec![0xA0, 3, 2, 1, 1]),
    way(1, "version an OCTET STRING", |c, _| c.version = vec![4, 1, 1]),
    way(1, "version twice", |c, _| c.version = vec![2, 1, 1, 2, 1, 1]),
    way(1, "no inner algorithm", |c, _| c.algorithm.clear()),
    way(1, "inner algorithm a SET", |c, _| c.algorithm = vec![0x31, 0]),
    way(1, "no outer algorithm", |c, _| c.envelope.outer_algorithm.clear()),
    way(1, "outer algorithm an application element", |c, _| tag(&mut c.envelope.outer_algorithm, 0x71)),
    way(1, "signature an OCTET STRING", |c, _| tag(&mut c.envelope.signature, 4)),
    way(1, "no signature", |c, _| c.envelope.signature.clear()),
    way(1, "more after the signature", |c, _| c.envelope.after_signature = vec![5, 0]),
    way(1, "more after the extensions", |c, _| c.envelope.after_extensions = vec![0xA1, 0]),
    way(1, "issuer of a broken shape", |c, r| c.issuer = r.pick(name::BAD_SHAPE)(c.letters)),
    way(1, "no this update", |c, _| c.this_update.clear()),
    way(1, "no next update", |c, _| c.next_update.clear()),
    way(1, "three times", |c, _| c.next_update = [time::utc("300101000000Z"), time::utc("300101000000Z")].concat()),
    way(1, "this update of another tag", |c, r| tag(&mut c.this_update, *r.pick(&[0x16, 0x19, 0x80, 4]))),
    way(1, "next update of another tag", |c, r| tag(&mut c.next_update, *r.pick(&[0x16, 0x19, 0x80, 4]))),
    way(1, "no A0", |c, _| c.envelope.extensions_block = Some(Vec::new())),
    way(1, "A0 empty", |c, _| c.envelope.extensions_block = Some(vec![0xA0, 0])),
    way(1, "A0 around a SET", |c, _| c.envelope.extensions_block = Some(vec![0xA0, 2, 0x31, 0])),
    way(1, "A0 around two", |c, _| {
        c.envelope.extensions_block = Some(element(0xA0, &[extension::list(&c.extensions), vec![0x30, 0]].concat()))
    }),
    way(1, "A0 twice", |c, _| c.envelope.after_extensions = vec![0xA0, 2, 0x30, 0]),
    way(1, "A3 for A0", |c, _| c.envelope.extensions_block = Some(element(0xA3, &extension::list(&c.extensions)))),
    way(1, "an extension of a broken shape", |c, r| {
        let mut broken = Extension::new(&[], false, &[]);
        broken.whole = Some(r.pick(extension::BAD_SHAPE)());
        c.extensions.push(broken);
    }),
];

const MOMENT: &[u8] = b"\x17\x0d230704101112Z";

const ENTRY_SHAPE: &[Way] = &[
    way(1, "list a SET", |c, _| c.list = Some(vec![0x31, 0])),
    way(1, "list twice", |c, _| c.list = Some([sequence(&[&entry(&[5], MOMENT, &[])]), vec![0x30, 0]].concat())),
    way(1, "entry empty", |c, _| c.entries.push(vec![0x30, 0])),
    way(1, "entry a SET", |c, _| c.entries.push(element(0x31, &[&[2, 1, 5], MOMENT].concat()))),
    way(1, "entry no SEQUENCE", |c, _| c.entries.push(vec![5, 0])),
    way(1, "entry without time", |c, _| c.entries.push(vec![0x30, 3, 2, 1, 5])),
    way(1, "entry without serial", |c, _| c.entries.push(element(SEQUENCE, MOMENT))),
    way(1, "entry with two serials", |c, _| c.entries.push(sequence(&[&[2, 1, 5], &[2, 1, 5], MOMENT]))),
    way(1, "entry with two times", |c, _| c.entries.push(sequence(&[&[2, 1, 5], MOMENT, MOMENT]))),
    way(1, "entry with a NULL", |c, _| c.entries.push(sequence(&[&[2, 1, 5], MOMENT, &[5, 0]]))),
    way(1, "entry with extensions twice", |c, _| {
        c.entries.push(sequence(&[&[2, 1, 5], MOMENT, &[0x30, 0], &[0x30, 0]]))
    }),
    way(1, "entry's extension of a broken shape", |c, r| {
        let broken = r.pick(extension::BAD_SHAPE)();
        c.entries.push(sequence(&[&[2, 1, 5], MOMENT, &element(SEQUENCE, &broken)]));
    }),
    way(1, "entry's extensions in A0", |c, _| c.entries.push(sequence(&[&[2, 1, 5], MOMENT, &[0xA0, 0]]))),
];

const VERSION: &[Way] = &[
    way(2, "version 0", |c, _| c.version = integer(&[0])),
    way(2, "version 2", |c, _| c.version = integer(&[2])),
    way(2, "version -1", |c, _| c.version = integer(&[0xFF])),
    way(2, "version 257", |c, _| c.version = integer(&[1, 1])),
    way(2, "version of 9 octets", |c, _| c.version = integer(&[1, 0, 0, 0, 0, 0, 0, 0, 1])),
];

const ALGORITHM: &[Way] = &[
    way(3, "another outer algorithm", |c, _| {
        c.algorithm = rsa_algorithm();
        c.envelope.outer_algorithm = vec![0x30, 0];
    }),
    way(3, "last octet of the outer algorithm", |c, _| {
        c.algorithm = rsa_algorithm();
        c.envelope.outer_algorithm = rsa_algorithm();
        c.envelope.outer_algorithm[12] ^= 1;
    }),
];

const COUNTRY: &[Way] = &[way(4, "no good country", |c, r| c.issuer = r.pick(name::BAD_COUNTRY)(c.letters))];

const TIMES: &[Way] = &[
    way(5, "this update of a wrong form", |c, r| c.this_update = time::bad(r)),
    way(5, "next update of a wrong form", |c, r| c.next_update = time::bad(r)),
    way(5, "this update a second after next update", |c, _| {
        c.this_update = time::utc("240301120001Z");
        c.next_update = time::utc("240301120000Z");
    }),
    way(5, "an entry's time of a wrong form", |c, r| {
        let bad = entry(&[5], &time::bad(r), &[]);
        let at = r.below(c.entries.len() + 1);
        c.entries.insert(at, bad);
    }),
];

const LIST: &[Way] = &[way(6, "list empty", |c, _| {
    c.entries.clear();
    c.list = Some(vec![0x30, 0]);
})];

const EXTENSIONS: &[Way] = &[
    way(7, "no extension", |c, _| c.extensions.clear()),
    way(7, "no authority key identifier", |c, _| remove(&mut c.extensions, &AUTHORITY_KEY_ID)),
    way(7, "no cRLNumber", |c, _| remove(&mut c.extensions, &CRL_NUMBER)),
    way(7, "authority key identifier twice", |c, _| {
        c.extensions.push(Extension::new(&AUTHORITY_KEY_ID, false, b""));
        c.extensions.push(Extension::new(&AUTHORITY_KEY_ID, false, b""));
    }),
    way(7, "a stranger twice", |c, _| {
        c.extensions.insert(0, Extension::new(&strange_oid(5), false, b"one"));
        c.extensions.push(Extension::new(&strange_oid(5), false, b"another"));
    }),
];

const CRITICAL: &[Way] = &[
    way(8, "authority key identifier critical", |c, _| {
        if let Some(found) = find(&mut c.extensions, &AUTHORITY_KEY_ID) {
            found.critical = true;
        }
    }),
    way(8, "cRLNumber critical", |c, _| {
        if let Some(found) = find(&mut c.extensions, &CRL_NUMBER) {
            found.critical = true;
        }
    }),
    way(8, "a critical stranger", |c, r| {
        let oid = strange_oid(4000 + r.below(4));
        remove(&mut c.extensions, &oid);
        c.extensions.push(Extension::new(&oid, true, b"x"));
    }),
    way(8, "issuingDistributionPoint critical", |c, _| c.extensions.push(Extension::new(&known(28), true, &[0x30, 0]))),
    way(8, "an entry's extension critical", |c, r| {
        let critical = entry(&[5], MOMENT, &[Extension::new(&known(21), true, &[10, 1, 1])]);
        let at = r.below(c.entries.len() + 1);
        c.entries.insert(at, critical);
    }),
];
