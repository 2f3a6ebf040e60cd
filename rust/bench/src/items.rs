//! Certificates, CRLs and other items of the questions.

use make::certificate::{Certificate, Parameters as Said, SIGNER};
use make::crl::{entry, Crl, Parameters};
use make::extension::{known, Extension};
use make::{der, extension, time};

/// The most bytes of an item.
pub const ITEM: usize = 16_384;
/// The most elements of an item.
const ELEMENTS: usize = 4_096;
const REVOKED: u64 = 20230704101112;

/// An item of at most so many bytes: a SEQUENCE of SEQUENCEs of an INTEGER, an OID, a string and a NULL.
pub fn many(bytes: usize) -> Vec<u8> {
    let group = [0x30, 19, 2, 2, 1, 7, 6, 3, 0x55, 4, 6, 0x13, 6, b'U', b'T', b'O', b'P', b'I', b'A', 5, 0];
    der::element(der::SEQUENCE, &group.repeat((bytes - 4) / group.len()))
}

/// A SEQUENCE of as many of one element as an item may have.
pub fn alike(element: &[u8]) -> Vec<u8> {
    der::element(der::SEQUENCE, &element.repeat(ELEMENTS - 1))
}

/// A SEQUENCE of elements, each 16 deep when all around it is counted, as many as an item may have.
pub fn deep() -> Vec<u8> {
    let mut nested = vec![5, 0];
    for _ in 0..14 {
        nested = der::element(der::SEQUENCE, &nested);
    }
    der::element(der::SEQUENCE, &nested.repeat((ELEMENTS - 1) / 15))
}

/// The longest of these CRLs that is an item.
fn longest(made: impl Fn(usize) -> Vec<u8>) -> Vec<u8> {
    (0..).map(made).take_while(|item| item.len() <= ITEM).last().unwrap_or_default()
}

/// The longest typical CRL that is an item.
pub fn crl_of_16k() -> Vec<u8> {
    longest(|entries| Crl::typical(entries).encode())
}

/// Published CRLs with two entries and with none.
pub const SHORT: &[u8] = include_bytes!("../../../tests/data/published/crl/GoodCACRL.crl");
pub const NO_ENTRIES: &[u8] = include_bytes!("../../../tests/data/published/crl/GoodsubCACRL.crl");

/// A reason code.
fn reason() -> Extension {
    Extension::new(&known(21), false, &[10, 1, 1])
}

/// A typical CRL with this many entries, each with this time and what else the number of the entry gives it.
fn listing(entries: usize, moment: &[u8], rest: impl Fn(usize) -> Vec<u8>) -> Vec<u8> {
    let mut made = Crl::typical(0);
    let serials = Parameters::typical(entries).serials;
    let one = |(number, serial): (usize, &Vec<u8>)| der::sequence(&[&der::integer(serial), moment, &rest(number)]);
    made.entries = serials.iter().enumerate().map(one).collect();
    made.encode()
}

/// The longest CRL that is an item, with a reason code in each entry.
pub fn crl_with_reasons() -> Vec<u8> {
    longest(|entries| listing(entries, &time::time(REVOKED), |_| extension::list(&[reason()])))
}

/// A CRL of 200 entries, every third with a reason code.
pub fn crl_with_some_reasons() -> Vec<u8> {
    listing(200, &time::time(REVOKED), |number| if number % 3 == 0 { extension::list(&[reason()]) } else { Vec::new() })
}

/// A CRL of 640 entries, each with an empty list of extensions.
pub fn crl_with_empty_lists() -> Vec<u8> {
    listing(640, &time::time(REVOKED), |_| vec![0x30, 0])
}

/// A CRL of 640 entries with a GeneralizedTime each.
pub fn crl_with_late_times() -> Vec<u8> {
    listing(640, &time::time(20510704101112), |_| Vec::new())
}

/// A CRL of 640 entries of the last day of a month.
pub fn crl_with_last_days() -> Vec<u8> {
    listing(640, &time::time(20231231101112), |_| Vec::new())
}

/// Extensions whose OIDs have no slot, no OID twice.
fn strangers(number: usize) -> Vec<Extension> {
    (0..number).map(|number| Extension::new(&[(number / 100) as u8, (number % 100) as u8], false, &[])).collect()
}

/// A CRL with one entry that has as many extensions as an item has elements for.
pub fn crl_with_one_entry() -> Vec<u8> {
    let mut made = Crl::typical(0);
    made.entries.push(entry(&[1], &time::time(REVOKED), &strangers(1353)));
    made.encode()
}

/// A CRL with as many extensions of its own as an item has elements for.
pub fn crl_with_extensions() -> Vec<u8> {
    let mut made = Crl::typical(0);
    made.extensions.extend(strangers(1351));
    made.encode()
}

/// A document signer with two extensions without a slot, as they occur: authorityInfoAccess and one of a vendor.
pub fn signer_with_two_strangers() -> Vec<u8> {
    let mut made = Certificate::typical(SIGNER);
    let access = b"\x30\x1f\x30\x1d\x06\x08\x2b\x06\x01\x05\x05\x07\x30\x02\x86\x11http://ut.local/c";
    made.extensions.push(Extension::new(b"\x2b\x06\x01\x05\x05\x07\x01\x01", false, access));
    made.extensions.push(Extension::new(
        b"\x2b\x06\x01\x04\x01\x82\x37\x15\x07",
        false,
        b"\x30\x06\x02\x01\x64\x02\x01\x03",
    ));
    made.encode()
}

/// A document signer with so many extensions without a slot.
pub fn signer_with_strangers(number: usize) -> Vec<u8> {
    let mut made = Certificate::typical(SIGNER);
    made.extensions.extend(strangers(number));
    made.encode()
}

/// A document signer with so many extensions in all, no OID twice.
pub fn extended(number: usize) -> Vec<u8> {
    let mut made = Certificate::typical(SIGNER);
    for stranger in made.extensions.len()..number {
        let oid = [0x2B, 14, (stranger / 100) as u8, (stranger % 100) as u8];
        made.extensions.push(Extension::new(&oid, false, &[5, 0]));
    }
    made.encode()
}

/// A document signer of about so many bytes, by its key.
pub fn signer_of(bytes: usize) -> Vec<u8> {
    let mut made = Certificate::new(&Said::typical(SIGNER));
    let rest = made.encode().len();
    made.key = der::sequence(&[&der::bit_string(&vec![0x04; bytes.saturating_sub(rest)])]);
    made.encode()
}
