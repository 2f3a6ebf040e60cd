//! Elements of an item in the order of the walk, up to a byte. Whether they are DER is the library's to say: this reader
//! is asked for what stands before the fault that the library told.

use crate::oids;
use crate::strings::text_of;
use crate::text::{clip, hex, octets};

#[derive(Clone, Copy)]
pub struct Node {
    pub at: usize,
    pub depth: usize,
    pub tag: u8,
    pub header: usize,
    pub length: usize,
}

/// The elements, and what is open where the reading ended: the depth there and the end of what holds it.
pub struct Reading {
    pub nodes: Vec<Node>,
    pub depth: usize,
    pub holder_end: usize,
}

impl Node {
    pub fn end(&self) -> usize {
        self.at.saturating_add(self.header).saturating_add(self.length)
    }

    pub fn whole<'a>(&self, bytes: &'a [u8]) -> &'a [u8] {
        bytes.get(self.at..self.end()).unwrap_or_default()
    }

    pub fn contents<'a>(&self, bytes: &'a [u8]) -> &'a [u8] {
        bytes.get(self.at.saturating_add(self.header)..self.end()).unwrap_or_default()
    }

    pub fn constructed(&self) -> bool {
        self.tag & 0x20 != 0
    }
}

/// Tag, header length and contents length of the element at a byte.
fn header(bytes: &[u8], at: usize) -> Option<(u8, usize, usize)> {
    let octet = |n: usize| bytes.get(at.checked_add(n)?).map(|b| usize::from(*b));
    let tag = *bytes.get(at)?;
    match octet(1)? {
        short @ 0..=127 => Some((tag, 2, short)),
        0x81 => Some((tag, 3, octet(2)?)),
        0x82 => Some((tag, 4, octet(2)? * 256 + octet(3)?)),
        _ => None,
    }
}

/// The element at a byte, where it ends within a bound.
fn node(bytes: &[u8], at: usize, depth: usize, bound: usize) -> Option<Node> {
    let (tag, header, length) = header(bytes, at)?;
    let found = Node { at, depth, tag, header, length };
    (found.end() <= bound).then_some(found)
}

pub fn read(bytes: &[u8], stop: usize) -> Reading {
    let mut ends = vec![bytes.len()];
    let mut nodes = Vec::new();
    let mut at = 0;
    loop {
        while ends.len() > 1 && ends.last() == Some(&at) {
            ends.pop();
        }
        let holder_end = ends.last().copied().unwrap_or_default();
        let over = at >= stop || (at > 0 && ends.len() == 1);
        let next = if over { None } else { node(bytes, at, ends.len(), holder_end) };
        let Some(found) = next else {
            return Reading { nodes, depth: ends.len(), holder_end };
        };
        nodes.push(found);
        at = if found.constructed() { found.at + found.header } else { found.end() };
        if found.constructed() {
            ends.push(found.end());
        }
    }
}

/// The members of a constructed element, as far as they can be read.
pub fn members(bytes: &[u8], holder: &Node) -> Vec<Node> {
    let mut found = Vec::new();
    let mut at = holder.at.saturating_add(holder.header);
    while at < holder.end() {
        let Some(member) = node(bytes, at, holder.depth + 1, holder.end()) else { break };
        at = member.end();
        found.push(member);
    }
    found
}

pub fn root(bytes: &[u8]) -> Option<Node> {
    node(bytes, 0, 1, bytes.len())
}

/// A tag by name.
pub fn tag_name(tag: u8) -> String {
    let number = tag & 0x1f;
    match tag >> 6 {
        0 => universal(number).map_or(format!("universal {number}"), str::to_string),
        1 => format!("[application {number}]"),
        2 => format!("[{number}]"),
        _ => format!("[private {number}]"),
    }
}

fn universal(number: u8) -> Option<&'static str> {
    Some(match number {
        1 => "BOOLEAN",
        2 => "INTEGER",
        3 => "BIT STRING",
        4 => "OCTET STRING",
        5 => "NULL",
        6 => "OBJECT IDENTIFIER",
        10 => "ENUMERATED",
        12 => "UTF8String",
        16 => "SEQUENCE",
        17 => "SET",
        18 => "NumericString",
        19 => "PrintableString",
        20 => "TeletexString",
        22 => "IA5String",
        23 => "UTCTime",
        24 => "GeneralizedTime",
        26 => "VisibleString",
        28 => "UniversalString",
        30 => "BMPString",
        _ => return None,
    })
}

/// What a primitive element holds, shortly.
pub fn value(node: &Node, bytes: &[u8]) -> String {
    let contents = node.contents(bytes);
    match node.tag {
        _ if node.constructed() => String::new(),
        1 => if contents == [0xff] { "TRUE" } else { "FALSE" }.to_string(),
        2 => hex(contents),
        5 => String::new(),
        6 => oids::named(contents),
        12 | 18..=20 | 22..=24 | 26 | 28 | 30 => text_of(node.tag, contents),
        _ => clip(&octets(contents), 50),
    }
}
