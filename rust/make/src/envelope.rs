//! What certificates and CRLs have alike: algorithms, the element around the extensions, and what stands around the tbs.

use crate::der::{bit_string, element, push_header, SEQUENCE};
use crate::extension::{self, Extension};

/// ECDSA with SHA-256.
pub fn algorithm() -> Vec<u8> {
    vec![0x30, 0x0A, 0x06, 0x08, 0x2A, 0x86, 0x48, 0xCE, 0x3D, 0x04, 0x03, 0x02]
}

/// RSA with SHA-256.
pub fn rsa_algorithm() -> Vec<u8> {
    vec![0x30, 0x0D, 0x06, 0x09, 0x2A, 0x86, 0x48, 0x86, 0xF7, 0x0D, 0x01, 0x01, 0x0B, 0x05, 0x00]
}

#[derive(Clone, Debug)]
pub struct Envelope {
    /// The element around the extensions, if it is not to be made of them.
    pub extensions_block: Option<Vec<u8>>,
    /// What stands after that element.
    pub after_extensions: Vec<u8>,
    pub outer_algorithm: Vec<u8>,
    pub signature: Vec<u8>,
    /// What stands after the signature.
    pub after_signature: Vec<u8>,
    pub tbs_tag: u8,
    pub outermost_tag: u8,
}

impl Envelope {
    /// One that keeps rule 1.
    pub fn good() -> Envelope {
        Envelope {
            extensions_block: None,
            after_extensions: Vec::new(),
            outer_algorithm: algorithm(),
            signature: bit_string(&[0x5A; 70]),
            after_signature: Vec::new(),
            tbs_tag: SEQUENCE,
            outermost_tag: SEQUENCE,
        }
    }

    /// The item: the parts of the tbs, the extensions in an element of this tag, algorithm and signature.
    pub fn around(&self, parts: &[&[u8]], tag: u8, extensions: &[Extension]) -> Vec<u8> {
        let block = match &self.extensions_block {
            Some(whole) => whole.clone(),
            None => element(tag, &extension::list(extensions)),
        };
        let tbs = [parts, &[&block, &self.after_extensions]].concat();
        let rest: [&[u8]; 3] = [&self.outer_algorithm, &self.signature, &self.after_signature];
        let length: usize = tbs.iter().map(|part| part.len()).sum();
        let after: usize = rest.iter().map(|part| part.len()).sum();
        let mut header = Vec::with_capacity(5);
        push_header(&mut header, self.tbs_tag, length);
        let mut item = Vec::with_capacity(length + after + 10);
        push_header(&mut item, self.outermost_tag, header.len() + length + after);
        item.extend_from_slice(&header);
        for part in tbs.iter().chain(&rest) {
            item.extend_from_slice(part);
        }
        item
    }
}
