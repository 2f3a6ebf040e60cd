//! String elements as text.

use crate::text::{hex, printable};

/// A string element's text by its tag; hex where it has none.
pub fn text_of(tag: u8, contents: &[u8]) -> String {
    let found = match tag {
        20 => Some(contents.iter().map(|b| char::from(*b)).collect()),
        28 => wide(contents),
        30 => double(contents),
        12 | 18 | 19 | 22..=24 | 26 => String::from_utf8(contents.to_vec()).ok(),
        _ => None,
    };
    found.map_or_else(|| format!("#{}", hex(contents)), |text: String| printable(&text))
}

fn double(contents: &[u8]) -> Option<String> {
    let pairs = contents.chunks(2).map(|two| match two {
        [high, low] => Some(u16::from_be_bytes([*high, *low])),
        _ => None,
    });
    String::from_utf16(&pairs.collect::<Option<Vec<_>>>()?).ok()
}

fn wide(contents: &[u8]) -> Option<String> {
    let fours = contents.chunks(4).map(|four| match four {
        [a, b, c, d] => char::from_u32(u32::from_be_bytes([*a, *b, *c, *d])),
        _ => None,
    });
    fours.collect()
}
