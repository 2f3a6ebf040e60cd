//! DER building blocks.

pub const BOOLEAN: u8 = 0x01;
pub const INTEGER: u8 = 0x02;
pub const BIT_STRING: u8 = 0x03;
pub const OCTET_STRING: u8 = 0x04;
pub const NULL: u8 = 0x05;
pub const OID: u8 = 0x06;
pub const UTF8_STRING: u8 = 0x0C;
pub const PRINTABLE_STRING: u8 = 0x13;
pub const UTC_TIME: u8 = 0x17;
pub const GENERALIZED_TIME: u8 = 0x18;
pub const SEQUENCE: u8 = 0x30;
pub const SET: u8 = 0x31;

/// Appends an identifier and the shortest length.
pub fn push_header(out: &mut Vec<u8>, id: u8, length: usize) {
    match length {
        0..=0x7F => out.extend([id, length as u8]),
        0x80..=0xFF => out.extend([id, 0x81, length as u8]),
        0x100..=0xFFFF => out.extend([id, 0x82, (length >> 8) as u8, length as u8]),
        _ => out.extend([id, 0x83, (length >> 16) as u8, (length >> 8) as u8, length as u8]),
    }
}

/// An element with these contents.
pub fn element(id: u8, contents: &[u8]) -> Vec<u8> {
    let mut out = Vec::with_capacity(contents.len() + 5);
    push_header(&mut out, id, contents.len());
    out.extend_from_slice(contents);
    out
}

/// An element around these elements.
pub fn around(id: u8, members: &[&[u8]]) -> Vec<u8> {
    let length = members.iter().map(|member| member.len()).sum();
    let mut out = Vec::with_capacity(length + 5);
    push_header(&mut out, id, length);
    for member in members {
        out.extend_from_slice(member);
    }
    out
}

pub fn sequence(members: &[&[u8]]) -> Vec<u8> {
    around(SEQUENCE, members)
}

/// A SET of these members, in ascending order.
pub fn set(mut members: Vec<Vec<u8>>) -> Vec<u8> {
    members.sort();
    element(SET, &members.concat())
}

/// An INTEGER with these contents.
pub fn integer(contents: &[u8]) -> Vec<u8> {
    element(INTEGER, contents)
}

/// An OID with these contents.
pub fn oid(contents: &[u8]) -> Vec<u8> {
    element(OID, contents)
}

pub fn octet_string(contents: &[u8]) -> Vec<u8> {
    element(OCTET_STRING, contents)
}

/// A BIT STRING of whole octets.
pub fn bit_string(octets: &[u8]) -> Vec<u8> {
    around(BIT_STRING, &[&[0], octets])
}

pub fn null() -> Vec<u8> {
    vec![NULL, 0]
}

/// `depth` SEQUENCEs, one in the other.
pub fn nested(depth: usize) -> Vec<u8> {
    (0..depth).fold(Vec::new(), |inner, _| element(SEQUENCE, &inner))
}

/// The contents of an element that keeps DER.
pub fn contents(element: &[u8]) -> &[u8] {
    &element[header(element)..]
}

/// The elements in the contents of one that keeps DER, each whole.
pub fn members(element: &[u8]) -> Vec<&[u8]> {
    let mut rest = contents(element);
    let mut found = Vec::new();
    while !rest.is_empty() {
        let (member, after) = rest.split_at(header(rest) + length(rest));
        found.push(member);
        rest = after;
    }
    found
}

/// How many octets identifier and length take.
fn header(element: &[u8]) -> usize {
    match element[1] {
        0..=0x7F => 2,
        more => 2 + (more & 0x7F) as usize,
    }
}

/// How many octets the contents take.
fn length(element: &[u8]) -> usize {
    match element[1] {
        short @ 0..=0x7F => short as usize,
        _ => element[2..header(element)].iter().fold(0, |sum, &octet| sum << 8 | octet as usize),
    }
}

/// The contents of the shortest INTEGER of this value.
pub fn integer_contents(value: i64) -> Vec<u8> {
    let octets = value.to_be_bytes();
    let mut from = 0;
    while from < 7 {
        let nine = (octets[from] as u16) << 1 | (octets[from + 1] as u16) >> 7;
        if nine != 0 && nine != 0x1FF {
            break;
        }
        from += 1;
    }
    octets[from..].to_vec()
}
