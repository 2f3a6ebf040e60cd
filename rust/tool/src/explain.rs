//! A refusal in words: which rule is broken, or which byte.

use crate::fault;
use crate::files::Item;
use crate::json::{object, Json};
use crate::oids;
use crate::text::wrapped;
use crate::tree;
use vrbolist::Refusal;

/// What was judged.
#[derive(Clone, Copy, PartialEq)]
pub enum Judged {
    Item,
    Certificate,
    Crl,
    Image,
}

const CERTIFICATE: [&str; 14] = [
    "Shape: a certificate is a SEQUENCE of the signed part, an algorithm and a BIT STRING, and the signed part has \
     exactly the fields of RFC 5280 in their order, with version and extensions; every extension is an OID, perhaps \
     TRUE, and an OCTET STRING, and every name is a SEQUENCE of sets of OID and value.",
    "Version: the version number is 2, which means v3.",
    "Serial: the serial number is above zero and has at most 20 octets. A first octet of 80 or more makes it negative.",
    "Algorithms: the signature algorithm inside the signed part and the one outside are the same octets.",
    "Country: issuer and subject each have one countryName (2.5.4.6), a PrintableString of two letters A to Z, and the \
     letters of both are the same.",
    "Unique identifiers: neither issuerUniqueID (81) nor subjectUniqueID (82) is there.",
    "Times: until 2049 a UTCTime YYMMDDHHMMSSZ, from 2050 on a GeneralizedTime YYYYMMDDHHMMSSZ; both are real moments, \
     and the start is not after the end.",
    "Extensions: there is at least one, and none stands twice.",
    "keyUsage (2.5.29.15) is there and critical: 03 02 01 06 (signs certificates and CRLs) for an anchor or a link, \
     03 02 07 80 (digital signature) for a document signer.",
    "basicConstraints (2.5.29.19): in an anchor or a link critical and 30 06 01 01 FF 02 01 00, an authority with path \
     length 0; a document signer has none.",
    "Key identifiers: an anchor or a link has a subjectKeyIdentifier (2.5.29.14), one OCTET STRING; a link or a document \
     signer has an authorityKeyIdentifier (2.5.29.35) that starts with tag 80; where one stands it has this form and is \
     not critical.",
    "privateKeyUsagePeriod, subjectAltName, issuerAltName and cRLDistributionPoints (2.5.29.16, .17, .18, .31) are there \
     and not critical.",
    "Document type list (2.23.136.1.1.6.2): a document signer has it, not critical: a SEQUENCE of INTEGER 0 and a SET of \
     PrintableStrings of one or two letters, which ascend.",
    "Critical: no extension is critical but keyUsage and basicConstraints.",
];

const CRL: [&str; 8] = [
    "Shape: a CRL is a SEQUENCE of the signed part, an algorithm and a BIT STRING, and the signed part has version, \
     algorithm, issuer, two times, perhaps entries, and extensions, in this order; an entry is a serial, a time and \
     perhaps extensions.",
    "Version: the version number is 1, which means v2.",
    "Algorithms: the signature algorithm inside the signed part and the one outside are the same octets.",
    "Country: the issuer has one countryName (2.5.4.6), a PrintableString of two letters A to Z.",
    "Times, those of the entries too: until 2049 a UTCTime YYMMDDHHMMSSZ, from 2050 on a GeneralizedTime \
     YYYYMMDDHHMMSSZ; all are real moments, and this update is not after next update.",
    "Entries: a list of entries that is there is not empty.",
    "Extensions: none stands twice, and authorityKeyIdentifier (2.5.29.35) and cRLNumber (2.5.29.20) are there.",
    "Critical: no extension of the CRL or of an entry is critical.",
];

const IMAGE: [&str; 7] = [
    "The image has 12 to 262,144 bytes.",
    "The version in the trailer is 1 or 2.",
    "There are at most 96 entries.",
    "The day in the trailer is real and of 1950 to 2099.",
    "Index start, 8 bytes for each entry, in version 2 12, and the 12 of the trailer add up to the length of the image.",
    "Each entry has a kind of 1 to 4, flags of that kind, a length of 1 to 16,384, and the sum of the lengths before it \
     as its offset; in version 2 the two bytes behind its letters are zeros.",
    "The lengths of all items add up to the index start.",
];

/// The sentence of a rule.
pub fn rule(judged: Judged, refusal: Refusal) -> &'static str {
    let rules: &[&str] = match (refusal.number, judged) {
        (4, Judged::Certificate) => &CERTIFICATE,
        (4, Judged::Crl) => &CRL,
        (5, _) => &IMAGE,
        _ => &[],
    };
    let place = usize::try_from(refusal.detail).ok().and_then(|rule| rule.checked_sub(1));
    place.and_then(|place| rules.get(place)).copied().unwrap_or_default()
}

/// A refusal in a few words.
pub fn short(refusal: Refusal) -> String {
    match refusal.number {
        2 => format!("not DER at byte {}", refusal.detail),
        3 => format!("limit passed at byte {}", refusal.detail),
        4 => format!("breaks rule {}", refusal.detail),
        number => format!("refusal {number}"),
    }
}

/// What a refusal of these bytes means, one paragraph a string.
pub fn paragraphs(judged: Judged, refusal: Refusal, bytes: &[u8]) -> Vec<String> {
    match refusal.number {
        2 | 3 => at_byte(refusal, bytes),
        4 => {
            let mut words = vec![
                format!("Broken is rule {} of the {} profile.", refusal.detail, profile(judged)),
                said(judged, refusal),
            ];
            if judged == Judged::Certificate && refusal.detail == 13 {
                words.extend(types_out_of_order(bytes));
            }
            words
        }
        5 => vec![format!("Broken is rule {} of the trust image.", refusal.detail), said(judged, refusal)],
        _ => vec![refusal.to_string()],
    }
}

/// The same, with the note of a file that was read as DER and looks like PEM.
pub fn of_item(judged: Judged, refusal: Refusal, item: &Item) -> Vec<String> {
    let mut words = paragraphs(judged, refusal, &item.bytes);
    words.extend(item.note.map(|note| format!("Note: {note}.")));
    words
}

/// Which two types of a document type list are out of order.
fn types_out_of_order(bytes: &[u8]) -> Option<String> {
    let nodes = tree::read(bytes, bytes.len()).nodes;
    let named = nodes.iter().position(|node| node.tag == 6 && node.contents(bytes) == oids::DOCUMENT_TYPES)?;
    let list = nodes.iter().skip(named).find(|node| node.tag == 4)?;
    let inside = list.contents(bytes);
    let start = list.at + list.header;
    let sets = tree::read(inside, inside.len()).nodes;
    let said = sets.iter().find_map(|set| fault::first_out_of_order(inside, set, start))?;
    Some(format!("Here {said}."))
}

fn said(judged: Judged, refusal: Refusal) -> String {
    format!("The rule: {}", rule(judged, refusal))
}

fn profile(judged: Judged) -> &'static str {
    if judged == Judged::Crl {
        "CRL"
    } else {
        "certificate"
    }
}

fn at_byte(refusal: Refusal, bytes: &[u8]) -> Vec<String> {
    let at = usize::try_from(refusal.detail).unwrap_or(usize::MAX);
    let reading = tree::read(bytes, at);
    vec![
        format!("At byte {at} (hex {at:x}): {}.", fault::words(bytes, refusal, &reading)),
        format!("There stands: {}", fault::standing(bytes, at)),
    ]
}

/// The lines under a heading that say that something was refused.
pub fn text(refusal: Refusal, paragraphs: &[String]) -> String {
    let mut out = format!("REFUSED  {}, detail {}: {}\n", refusal.number, refusal.detail, name(refusal));
    for paragraph in paragraphs {
        out.push_str(&wrapped(paragraph, 2));
    }
    out
}

pub fn name(refusal: Refusal) -> &'static str {
    match refusal.number {
        1 => "an argument is out of its range",
        2 => "not DER",
        3 => "a limit is passed",
        4 => "a rule of the profile is broken",
        5 => "a rule of the trust image is broken",
        6 => "the image is not of the wanted day",
        7 => "there is no good chain",
        8 => "an INTEGER is too long for a number",
        9 => "the output is too short",
        _ => "refused",
    }
}

pub fn json(refusal: Refusal, paragraphs: &[String]) -> Json {
    object! {
        "number": refusal.number,
        "detail": refusal.detail,
        "name": name(refusal),
        "words": paragraphs.iter().map(|p| Json::from(p.as_str())).collect::<Vec<_>>(),
    }
}
