//! Whether a text is one JSON value.

pub fn sound(text: &str) -> bool {
    let bytes = text.trim().as_bytes();
    value(bytes) == Some(&[])
}

fn blank(bytes: &[u8]) -> &[u8] {
    bytes.trim_ascii_start()
}

fn value(bytes: &[u8]) -> Option<&[u8]> {
    match blank(bytes).first()? {
        b'{' => list(&blank(bytes)[1..], b'}', |rest| value(blank(string(rest)?).strip_prefix(b":")?)),
        b'[' => list(&blank(bytes)[1..], b']', value),
        b'"' => string(bytes),
        _ => word(blank(bytes)),
    }
}

fn list(bytes: &[u8], end: u8, one: impl Fn(&[u8]) -> Option<&[u8]>) -> Option<&[u8]> {
    if let Some(rest) = blank(bytes).strip_prefix(&[end]) {
        return Some(rest);
    }
    let mut rest = blank(one(bytes)?);
    while let Some(more) = rest.strip_prefix(b",") {
        rest = blank(one(more)?);
    }
    rest.strip_prefix(&[end])
}

fn string(bytes: &[u8]) -> Option<&[u8]> {
    let mut rest = blank(bytes).strip_prefix(b"\"")?;
    loop {
        rest = match rest {
            [b'"', rest @ ..] => return Some(rest),
            [b'\\', b'"' | b'\\' | b'n', rest @ ..] => rest,
            [b'\\', b'u', a, b, c, d, rest @ ..] if [a, b, c, d].iter().all(|x| x.is_ascii_hexdigit()) => rest,
            [0..=0x1f | b'\\', ..] | [] => return None,
            [_, rest @ ..] => rest,
        }
    }
}

fn word(bytes: &[u8]) -> Option<&[u8]> {
    let known = [&b"null"[..], b"true", b"false"].into_iter().find_map(|word| bytes.strip_prefix(word));
    known.or_else(|| {
        let digits = bytes.strip_prefix(b"-").unwrap_or(bytes);
        let count = digits.iter().take_while(|b| b.is_ascii_digit()).count();
        (count > 0).then(|| &digits[count..])
    })
}
