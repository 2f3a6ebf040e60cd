//! Object identifiers: dotted numbers and known names.

use crate::text::hex;

/// 2.23.136.1.1.6.2, the document type list.
pub const DOCUMENT_TYPES: [u8; 7] = [0x67, 0x81, 0x08, 0x01, 0x01, 0x06, 0x02];

const KNOWN: &[(&str, &str)] = &[
    ("0.4.0.127.0.7.1.1.4.1.3", "ecdsa-plain-SHA256"),
    ("1.2.840.10040.4.1", "dsa"),
    ("1.2.840.10040.4.3", "dsaWithSHA1"),
    ("1.2.840.10045.1.1", "prime-field"),
    ("1.2.840.10045.2.1", "ecPublicKey"),
    ("1.2.840.10045.3.1.7", "P-256"),
    ("1.2.840.10045.4.1", "ecdsaWithSHA1"),
    ("1.2.840.10045.4.3.1", "ecdsaWithSHA224"),
    ("1.2.840.10045.4.3.2", "ecdsaWithSHA256"),
    ("1.2.840.10045.4.3.3", "ecdsaWithSHA384"),
    ("1.2.840.10045.4.3.4", "ecdsaWithSHA512"),
    ("1.2.840.113549.1.1.1", "rsaEncryption"),
    ("1.2.840.113549.1.1.5", "sha1WithRSAEncryption"),
    ("1.2.840.113549.1.1.8", "mgf1"),
    ("1.2.840.113549.1.1.10", "rsassaPss"),
    ("1.2.840.113549.1.1.11", "sha256WithRSAEncryption"),
    ("1.2.840.113549.1.1.12", "sha384WithRSAEncryption"),
    ("1.2.840.113549.1.1.13", "sha512WithRSAEncryption"),
    ("1.2.840.113549.1.9.1", "emailAddress"),
    ("1.3.14.3.2.26", "sha1"),
    ("1.3.36.3.3.2.8.1.1.7", "brainpoolP256r1"),
    ("1.3.36.3.3.2.8.1.1.11", "brainpoolP384r1"),
    ("1.3.36.3.3.2.8.1.1.13", "brainpoolP512r1"),
    ("1.3.132.0.34", "P-384"),
    ("1.3.132.0.35", "P-521"),
    ("1.3.6.1.5.5.7.1.1", "authorityInfoAccess"),
    ("0.9.2342.19200300.100.1.1", "UID"),
    ("0.9.2342.19200300.100.1.25", "DC"),
    ("2.5.4.3", "CN"),
    ("2.5.4.4", "SN"),
    ("2.5.4.5", "serialNumber"),
    ("2.5.4.6", "C"),
    ("2.5.4.7", "L"),
    ("2.5.4.8", "ST"),
    ("2.5.4.9", "street"),
    ("2.5.4.10", "O"),
    ("2.5.4.11", "OU"),
    ("2.5.4.12", "title"),
    ("2.5.4.42", "GN"),
    ("2.5.4.97", "organizationIdentifier"),
    ("2.5.29.9", "subjectDirectoryAttributes"),
    ("2.5.29.14", "subjectKeyIdentifier"),
    ("2.5.29.15", "keyUsage"),
    ("2.5.29.16", "privateKeyUsagePeriod"),
    ("2.5.29.17", "subjectAltName"),
    ("2.5.29.18", "issuerAltName"),
    ("2.5.29.19", "basicConstraints"),
    ("2.5.29.20", "cRLNumber"),
    ("2.5.29.21", "reasonCode"),
    ("2.5.29.24", "invalidityDate"),
    ("2.5.29.27", "deltaCRLIndicator"),
    ("2.5.29.28", "issuingDistributionPoint"),
    ("2.5.29.29", "certificateIssuer"),
    ("2.5.29.31", "cRLDistributionPoints"),
    ("2.5.29.32", "certificatePolicies"),
    ("2.5.29.33", "policyMappings"),
    ("2.5.29.35", "authorityKeyIdentifier"),
    ("2.5.29.36", "policyConstraints"),
    ("2.5.29.37", "extKeyUsage"),
    ("2.16.840.1.101.3.4.2.1", "sha256"),
    ("2.16.840.1.101.3.4.2.2", "sha384"),
    ("2.16.840.1.101.3.4.2.3", "sha512"),
    ("2.16.840.1.101.3.4.2.4", "sha224"),
    ("2.23.136.1.1.6.1", "nameChange"),
    ("2.23.136.1.1.6.2", "documentTypeList"),
];

/// Dotted numbers, or hex where one of them is too large.
pub fn dotted(contents: &[u8]) -> String {
    numbers(contents).unwrap_or_else(|| format!("hex {}", hex(contents)))
}

fn numbers(contents: &[u8]) -> Option<String> {
    let mut out = Vec::new();
    let mut value: u64 = 0;
    for octet in contents {
        value = value.checked_mul(128)?.checked_add(u64::from(octet & 0x7f))?;
        if octet & 0x80 == 0 {
            push(&mut out, value);
            value = 0;
        }
    }
    (!out.is_empty()).then(|| out.join("."))
}

/// The first sub-identifier holds two numbers.
fn push(out: &mut Vec<String>, value: u64) {
    if out.is_empty() {
        let first = (value / 40).min(2);
        out.push(first.to_string());
        out.push((value - 40 * first).to_string());
    } else {
        out.push(value.to_string());
    }
}

pub fn name(dotted: &str) -> Option<&'static str> {
    KNOWN.iter().find(|(numbers, _)| *numbers == dotted).map(|(_, name)| *name)
}

/// Numbers and name.
pub fn named(contents: &[u8]) -> String {
    let numbers = dotted(contents);
    match name(&numbers) {
        Some(name) => format!("{numbers} {name}"),
        None => numbers,
    }
}
