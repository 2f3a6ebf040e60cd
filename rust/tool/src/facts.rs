//! What an item says of itself, read loosely: shown beside a broken rule of its profile, so that the fault can be seen.

use crate::names;
use crate::oids;
use crate::text::{clip, counted, hex, octets, WIDTH};
use crate::tree::{members, root, tag_name, value, Node};

/// Lines of fields and extensions, as far as they can be read.
pub fn lines(bytes: &[u8]) -> Vec<String> {
    let tbs = root(bytes).and_then(|top| members(bytes, &top).first().copied());
    let fields = tbs.map(|tbs| members(bytes, &tbs)).unwrap_or_default();
    let mut out = Vec::new();
    for (n, field) in fields.iter().enumerate() {
        match field.tag {
            // The first field of a CRL is its version; the other INTEGER is a certificate's serial.
            2 => {
                out.push(line(field, &format!("{} {}", if n == 0 { "version" } else { "serial" }, value(field, bytes))))
            }
            0xa0 | 0xa3 => wrapped(bytes, field, &mut out),
            0x30 => out.push(sequence(bytes, field)),
            _ => out.push(line(field, &format!("{} {}", tag_name(field.tag), value(field, bytes)))),
        }
    }
    out
}

fn line(node: &Node, text: &str) -> String {
    clip(&format!("  {:>6}  {text}", node.at), WIDTH)
}

/// A SEQUENCE in the signed part: a name, two times, an algorithm, a key or entries.
fn sequence(bytes: &[u8], field: &Node) -> String {
    let inside = members(bytes, field);
    let text = match inside.first().map(|first| first.tag) {
        Some(0x31) => format!("name {}", names::name(field.whole(bytes))),
        Some(0x17 | 0x18) => {
            let each: Vec<String> = inside.iter().map(|t| format!("{} {}", tag_name(t.tag), value(t, bytes))).collect();
            format!("times {}", each.join(" to "))
        }
        Some(6) => format!("algorithm {}", inside.first().map(|oid| value(oid, bytes)).unwrap_or_default()),
        Some(0x30) => key_or_entries(bytes, &inside),
        _ => format!("SEQUENCE of {}", counted(inside.len(), "member")),
    };
    line(field, &text)
}

fn key_or_entries(bytes: &[u8], inside: &[Node]) -> String {
    match inside {
        [algorithm, key] if key.tag == 3 => {
            let oid = members(bytes, algorithm).first().map(|oid| value(oid, bytes)).unwrap_or_default();
            format!("key {oid}, {}", counted(key.length, "byte"))
        }
        _ => format!("list of {}", counted(inside.len(), "entry")),
    }
}

/// A0 around a version, or A0 or A3 around extensions.
fn wrapped(bytes: &[u8], field: &Node, out: &mut Vec<String>) {
    for inner in members(bytes, field) {
        match inner.tag {
            2 => out.push(line(&inner, &format!("version {}", hex(inner.contents(bytes))))),
            _ => out.extend(members(bytes, &inner).iter().map(|extension| one_extension(bytes, extension))),
        }
    }
}

fn one_extension(bytes: &[u8], extension: &Node) -> String {
    let parts = members(bytes, extension);
    let oid = parts.first().map(|oid| oids::named(oid.contents(bytes))).unwrap_or_default();
    let critical = if parts.iter().any(|part| part.tag == 1) { " critical" } else { "" };
    let held = parts.last().map(|last| octets(last.contents(bytes))).unwrap_or_default();
    line(extension, &format!("extension {oid}{critical}: {held}"))
}
