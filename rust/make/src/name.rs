//! Names.

use crate::der::{around, element, oid, sequence, set, OID, PRINTABLE_STRING, SEQUENCE, SET, UTF8_STRING};
use crate::random::Random;

/// countryName, 2.5.4.6.
pub const COUNTRY: &[u8] = &[0x55, 4, 6];
/// organizationName, 2.5.4.10.
pub const ORGANIZATION: &[u8] = &[0x55, 4, 10];
/// commonName, 2.5.4.3.
pub const COMMON: &[u8] = &[0x55, 4, 3];

/// Kinds of attributes other than the country.
const KINDS: &[&[u8]] = &[COMMON, ORGANIZATION, &[0x55, 4, 5], &[0x55, 4, 7], &[0x2A, 0x86, 0x48, 1]];

/// Makes a name from the letters that would be right.
pub type Way = fn([u8; 2]) -> Vec<u8>;

/// SEQUENCE {OID, value}.
pub fn attribute(kind: &[u8], tag: u8, value: &[u8]) -> Vec<u8> {
    sequence(&[&oid(kind), &element(tag, value)])
}

/// A SET of one attribute.
pub fn relative(kind: &[u8], tag: u8, value: &[u8]) -> Vec<u8> {
    let inner = value.len() + kind.len() + 4;
    if inner > 120 {
        return element(SET, &attribute(kind, tag, value));
    }
    let mut out = Vec::with_capacity(inner + 4);
    out.extend([SET, inner as u8 + 2, SEQUENCE, inner as u8, OID, kind.len() as u8]);
    out.extend_from_slice(kind);
    out.extend([tag, value.len() as u8]);
    out.extend_from_slice(value);
    out
}

/// A country as it should stand.
pub fn country(letters: [u8; 2]) -> Vec<u8> {
    relative(COUNTRY, PRINTABLE_STRING, &letters)
}

/// A name of country, organization and common name.
pub fn name(letters: [u8; 2], common: &str) -> Vec<u8> {
    sequence(&[
        &country(letters),
        &relative(ORGANIZATION, UTF8_STRING, b"Ministry"),
        &relative(COMMON, UTF8_STRING, common.as_bytes()),
    ])
}

/// Two letters A to Z.
pub fn letters(random: &mut Random) -> [u8; 2] {
    [b'A' + random.below(26) as u8, b'A' + random.below(26) as u8]
}

/// A good name of this country, with other parts as they come.
pub fn varied(random: &mut Random, letters: [u8; 2]) -> Vec<u8> {
    if random.percent(50) {
        return name(letters, random.pick::<&str>(&["CSCA", "Signer 1", "CSCA-LINK", ""]));
    }
    let mut parts = vec![country(letters)];
    for _ in 0..random.below(4) {
        let kind = *random.pick(KINDS);
        let length = random.below(40);
        let text = random.octets(length);
        parts.push(match random.below(6) {
            0 => set_of_two(kind, &text),
            1 => element(SET, &sequence(&[&oid(kind), &element(SEQUENCE, &element(UTF8_STRING, &text))])),
            _ => relative(kind, *random.pick(&[UTF8_STRING, PRINTABLE_STRING, 0x16, 0x1E]), &text),
        });
    }
    if random.percent(10) {
        // The country inside a SET of several.
        let other = attribute(COMMON, UTF8_STRING, random.pick::<&[u8]>(&[b"x", b"xy", b"xyz"]));
        parts[0] = set(vec![other, attribute(COUNTRY, PRINTABLE_STRING, &letters)]);
    }
    random.shuffle(&mut parts);
    element(SEQUENCE, &parts.concat())
}

fn set_of_two(kind: &[u8], text: &[u8]) -> Vec<u8> {
    set(vec![attribute(kind, UTF8_STRING, text), attribute(COMMON, PRINTABLE_STRING, b"two")])
}

/// Names that keep the shape and have no good country.
pub const BAD_COUNTRY: &[Way] = &[
    |_| sequence(&[]),
    |_| sequence(&[&relative(COMMON, UTF8_STRING, b"none")]),
    |letters| sequence(&[&country(letters), &country(letters)]),
    |letters| sequence(&[&country(letters), &relative(COUNTRY, UTF8_STRING, &letters)]),
    |letters| sequence(&[&relative(COUNTRY, UTF8_STRING, &letters), &country(letters)]),
    |letters| {
        let one = attribute(COUNTRY, PRINTABLE_STRING, &letters);
        sequence(&[&around(SET, &[&one, &one])])
    },
    |letters| sequence(&[&relative(COUNTRY, UTF8_STRING, &letters)]),
    |letters| sequence(&[&relative(COUNTRY, 0x16, &letters)]),
    |letters| sequence(&[&relative(COUNTRY, PRINTABLE_STRING, &letters.map(|letter| letter | 0x20))]),
    |letters| sequence(&[&relative(COUNTRY, PRINTABLE_STRING, &[letters[0], b'a'])]),
    |letters| sequence(&[&relative(COUNTRY, PRINTABLE_STRING, &[b'@', letters[1]])]),
    |letters| sequence(&[&relative(COUNTRY, PRINTABLE_STRING, &[letters[0], b'['])]),
    |letters| sequence(&[&relative(COUNTRY, PRINTABLE_STRING, &[letters[0], b'1'])]),
    |letters| sequence(&[&relative(COUNTRY, PRINTABLE_STRING, &letters[..1])]),
    |_| sequence(&[&relative(COUNTRY, PRINTABLE_STRING, b"")]),
    |letters| sequence(&[&relative(COUNTRY, PRINTABLE_STRING, &[letters[0], letters[1], b'A'])]),
    |letters| sequence(&[&relative(COUNTRY, SEQUENCE, &element(PRINTABLE_STRING, &letters))]),
    |letters| sequence(&[&relative(&[0x55, 4, 6, 1], PRINTABLE_STRING, &letters)]),
];

/// Names that break the shape.
pub const BAD_SHAPE: &[Way] = &[
    |letters| element(SET, &country(letters)),
    |_| Vec::new(),
    |letters| sequence(&[&country(letters), &[SET, 0]]),
    |letters| sequence(&[&[SET, 0], &country(letters)]),
    |letters| sequence(&[&attribute(COUNTRY, PRINTABLE_STRING, &letters)]),
    |letters| sequence(&[&element(SEQUENCE, &attribute(COUNTRY, PRINTABLE_STRING, &letters))]),
    |letters| sequence(&[&country(letters), &element(SET, &sequence(&[&oid(COMMON)]))]),
    |letters| sequence(&[&country(letters), &element(SET, &[SEQUENCE, 0])]),
    |letters| sequence(&[&country(letters), &element(SET, &sequence(&[&oid(COMMON), &[5, 0], &[5, 0]]))]),
    |letters| sequence(&[&country(letters), &element(SET, &set(vec![oid(COMMON), vec![5, 0]]))]),
    |letters| sequence(&[&country(letters), &element(SET, &sequence(&[&[2, 1, 5], &[5, 0]]))]),
    |letters| sequence(&[&country(letters), &set(vec![attribute(COMMON, UTF8_STRING, b"x"), vec![5, 0]])]),
    |letters| sequence(&[&country(letters), &[5, 0]]),
    |letters| element(0xA0, &country(letters)),
    |letters| element(4, &country(letters)),
];

/// The letters of a name's countryName, zeros where it has none as a PrintableString of two.
pub fn letters_in(name: &[u8]) -> [u8; 2] {
    let at = name.windows(5).position(|part| part == [0x55, 4, 6, 0x13, 2]);
    at.and_then(|at| name.get(at + 5..at + 7)?.try_into().ok()).unwrap_or_default()
}
