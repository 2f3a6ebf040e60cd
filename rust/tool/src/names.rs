//! Names as text: `C=UT, O=Utopia, CN=..`.

use crate::oids;
use crate::strings::text_of;
use crate::tree::{members, root, Node};

/// A name's DER as text, with `+` between the parts of one set.
pub fn name(bytes: &[u8]) -> String {
    let sets = root(bytes).map(|top| members(bytes, &top)).unwrap_or_default();
    let parts: Vec<String> = sets.iter().map(|set| set_text(bytes, set)).collect();
    match parts.is_empty() {
        true => "(empty)".to_string(),
        false => parts.join(", "),
    }
}

fn set_text(bytes: &[u8], set: &Node) -> String {
    members(bytes, set).iter().map(|pair| pair_text(bytes, pair)).collect::<Vec<_>>().join(" + ")
}

fn pair_text(bytes: &[u8], pair: &Node) -> String {
    match members(bytes, pair).as_slice() {
        [oid, value] => {
            let numbers = oids::dotted(oid.contents(bytes));
            let label = oids::name(&numbers).map_or(numbers.clone(), str::to_string);
            format!("{label}={}", escaped(&text_of(value.tag, value.contents(bytes))))
        }
        _ => "?".to_string(),
    }
}

/// Signs that part a name from the next are marked where they stand inside a value.
fn escaped(text: &str) -> String {
    text.replace('\\', "\\\\").replace(',', "\\,").replace('+', "\\+")
}
