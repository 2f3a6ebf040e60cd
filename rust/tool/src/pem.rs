//! PEM: the first block of a text, as RFC 7468 lays it out, with anything before and behind it.

/// What was found in a file that is not DER as it stands.
pub enum Found {
    Nothing,
    Block { label: String, bytes: Vec<u8> },
    Broken(&'static str),
}

pub fn first(file: &[u8]) -> Found {
    let mut lines = file.split(|b| *b == b'\n').map(<[u8]>::trim_ascii);
    let Some(label) = lines.by_ref().find_map(|line| marked(line, b"-----BEGIN ")) else {
        return Found::Nothing;
    };
    let mut digits = Vec::new();
    for line in lines {
        if let Some(end) = marked(line, b"-----END ") {
            return block(label, end, &digits);
        }
        if !line.contains(&b':') {
            digits.extend_from_slice(line);
        }
    }
    Found::Broken("a PEM block begins but has no END line")
}

fn marked<'a>(line: &'a [u8], start: &[u8]) -> Option<&'a [u8]> {
    line.strip_prefix(start)?.strip_suffix(b"-----")
}

fn block(label: &[u8], end: &[u8], digits: &[u8]) -> Found {
    if label != end {
        return Found::Broken("a PEM block ends under another name than it begins");
    }
    match decoded(digits) {
        Some(bytes) => Found::Block { label: String::from_utf8_lossy(label).into_owned(), bytes },
        None => Found::Broken("a PEM block holds something that is not base64"),
    }
}

fn decoded(digits: &[u8]) -> Option<Vec<u8>> {
    let digits: Vec<u8> = digits.iter().copied().filter(|b| !b.is_ascii_whitespace()).collect();
    let padding = digits.iter().rev().take_while(|b| **b == b'=').count();
    if digits.len() % 4 != 0 || padding > 2 {
        return None;
    }
    let values: Vec<u32> = digits.get(..digits.len() - padding)?.iter().map(|b| value(*b)).collect::<Option<_>>()?;
    let mut bytes = Vec::new();
    for four in values.chunks(4) {
        let joined = four.iter().fold(0, |sum, v| (sum << 6) | v) << (6 * (4 - four.len()));
        let kept = four.len().saturating_sub(1);
        bytes.extend(joined.to_be_bytes().iter().skip(1).take(kept));
    }
    Some(bytes)
}

fn value(digit: u8) -> Option<u32> {
    let value = match digit {
        b'A'..=b'Z' => digit - b'A',
        b'a'..=b'z' => digit - b'a' + 26,
        b'0'..=b'9' => digit - b'0' + 52,
        b'+' => 62,
        b'/' => 63,
        _ => return None,
    };
    Some(value.into())
}
