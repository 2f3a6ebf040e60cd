//! Words for a fault of DER at the byte that the library told.

use crate::text::{counted, octets};
use crate::tree::{members, tag_name, Node, Reading};
use vrbolist::Refusal;

const SET: u8 = 0x31;
const ITEM_MOST: usize = 16_384;
/// As many octets of a member are shown.
const FRONT: usize = 12;
const DEEPEST: usize = 16;
const ELEMENTS_MOST: usize = 4_096;

/// What is wrong at the byte, read in the order of the rules.
pub fn words(bytes: &[u8], refusal: Refusal, reading: &Reading) -> String {
    let at = usize::try_from(refusal.detail).unwrap_or(usize::MAX);
    match refusal.number {
        3 => limit(bytes, reading),
        _ => der(bytes, at, reading),
    }
}

fn limit(bytes: &[u8], reading: &Reading) -> String {
    if bytes.len() > ITEM_MOST {
        format!("the item has {} bytes; an item may have 16,384", bytes.len())
    } else if reading.depth > DEEPEST {
        format!("this element is at depth {}; the deepest may be at {DEEPEST}", reading.depth)
    } else if reading.nodes.len() >= ELEMENTS_MOST {
        "this would be element 4,097; an item may have 4,096".to_string()
    } else {
        "a limit is passed here".to_string()
    }
}

fn der(bytes: &[u8], at: usize, reading: &Reading) -> String {
    let held = bytes.get(at..reading.holder_end).unwrap_or_default();
    if at > 0 && reading.depth == 1 {
        return format!("the outermost element ended here, but {} more", follow(held.len()));
    }
    let Some(tag) = held.first().copied() else {
        return "the file is empty: there is no element".to_string();
    };
    identifier(tag)
        .or_else(|| length(held, reading.depth == 1))
        .or_else(|| order(bytes, at, reading))
        .or_else(|| contents(tag, held))
        .unwrap_or_else(|| "this element is not DER".to_string())
}

fn follow(count: usize) -> String {
    match count {
        1 => "1 byte follows".to_string(),
        _ => format!("{count} bytes follow"),
    }
}

fn identifier(tag: u8) -> Option<String> {
    let name = tag_name(tag);
    let constructed = tag & 0x20 != 0;
    match (tag >> 6, tag & 0x1f) {
        (_, 31) => Some(format!("identifier {tag:02X} starts a tag number of several octets, which is not taken")),
        (0, 0) => Some(format!("identifier {tag:02X} is universal tag 0, which is not taken")),
        (0, 16 | 17) if !constructed => Some(format!("a {name} must be constructed; {tag:02X} says primitive")),
        (0, 16 | 17) => None,
        (0, _) if constructed => Some(format!("a universal {name} must be primitive; {tag:02X} says constructed")),
        _ => None,
    }
}

/// The length octets, then whether the element ends within what holds it.
fn length(held: &[u8], outermost: bool) -> Option<String> {
    let (header, length) = match held.get(1..).unwrap_or_default() {
        [] => return Some("the length octet is missing".to_string()),
        [short @ 0..=0x7f, ..] => (2, usize::from(*short)),
        [0x80, ..] => return Some("length 80 is the indefinite form, which DER does not have".to_string()),
        [0x81, n, ..] if *n < 0x80 => return Some(format!("length {} needs one octet, but 81 is used", n)),
        [0x81, n, ..] => (3, usize::from(*n)),
        [0x82, 0, n, ..] => return Some(format!("length {n} needs fewer octets, but 82 is used")),
        [0x82, high, low, ..] => (4, usize::from(*high) * 256 + usize::from(*low)),
        [0x81 | 0x82, ..] => return Some("length octets are missing".to_string()),
        [form, ..] => return Some(format!("length form {form:02X} is not taken: 81 and 82 are the longest")),
    };
    let left = held.len().saturating_sub(header);
    let left_words = match outermost {
        true => format!("only {}: the file may be cut short", follow(left)),
        false => format!("what holds it has only {} left", counted(left, "byte")),
    };
    (length > left).then(|| format!("its length is {length}, but {left_words}"))
}

/// The element against the one before it, where both are members of a SET.
fn order(bytes: &[u8], at: usize, reading: &Reading) -> Option<String> {
    let holder = reading.nodes.iter().rev().find(|node| node.depth + 1 == reading.depth)?;
    let place = members(bytes, holder).iter().position(|member| member.at == at)?;
    out_of_order(bytes, holder, place, 0)
}

/// Words for the first member of a SET that is smaller than the one before it. Bytes are told as from `start` on.
pub fn first_out_of_order(bytes: &[u8], holder: &Node, start: usize) -> Option<String> {
    (1..members(bytes, holder).len()).find_map(|place| out_of_order(bytes, holder, place, start))
}

fn out_of_order(bytes: &[u8], holder: &Node, place: usize, start: usize) -> Option<String> {
    let found = members(bytes, holder);
    let (before, this) = (found.get(place.checked_sub(1)?)?, found.get(place)?);
    let (high, low) = (before.whole(bytes), this.whole(bytes));
    let differ = low.iter().zip(high).position(|(a, b)| a != b)?;
    let smaller = holder.tag == SET && low.get(differ) < high.get(differ);
    smaller.then(|| {
        format!(
            "the members of a SET ascend, but of the SET at byte {} member {}, {}, is below member {place} at byte {}, {}: \
             octet {} differs first",
            start + holder.at,
            place + 1,
            front(low),
            start + before.at,
            front(high),
            differ + 1,
        )
    })
}

/// The first octets of an element.
fn front(octets: &[u8]) -> String {
    match octets.get(..FRONT) {
        Some(first) if octets.len() > FRONT => format!("{} ..", crate::text::octets(first)),
        _ => crate::text::octets(octets),
    }
}

fn contents(tag: u8, held: &[u8]) -> Option<String> {
    let start = match held.get(1)? {
        0x81 => 3,
        0x82 => 4,
        _ => 2,
    };
    let length = match held.get(1..start)? {
        [short] => usize::from(*short),
        [_, n] => usize::from(*n),
        [_, high, low] => usize::from(*high) * 256 + usize::from(*low),
        _ => return None,
    };
    let contents = held.get(start..start + length)?;
    let said = match tag {
        1 => "a BOOLEAN is one octet, 00 or FF",
        2 if contents.is_empty() => "an INTEGER has at least one octet",
        2 => "the first nine bits of an INTEGER are not all equal: it has an octet too many",
        3 if contents.is_empty() => "a BIT STRING has at least one octet",
        3 => "a BIT STRING starts with its number of unused bits, 0 to 7 and 0 where it is alone, and these bits are 0",
        5 => "a NULL has no contents",
        6 => "an OBJECT IDENTIFIER is not empty, ends below 80, and none of its numbers starts with 80",
        _ => return None,
    };
    Some(said.to_string())
}

/// The bytes at an offset, as far as they fit a line.
pub fn standing(bytes: &[u8], at: usize) -> String {
    let rest = bytes.get(at..).unwrap_or_default();
    match rest.len() {
        0 => "nothing: the file ends there".to_string(),
        1..=16 => octets(rest),
        _ => format!("{} ..", octets(rest.get(..16).unwrap_or_default())),
    }
}
