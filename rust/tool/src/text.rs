//! Small pieces of text: hex, moments, columns.

pub const WIDTH: usize = 100;

pub fn hex(bytes: &[u8]) -> String {
    bytes.iter().map(|b| format!("{b:02x}")).collect()
}

/// Octets with spaces between them, as in the rules.
pub fn octets(bytes: &[u8]) -> String {
    bytes.iter().map(|b| format!("{b:02X}")).collect::<Vec<_>>().join(" ")
}

/// 20261115 as 2026-11-15.
pub fn day(number: u64) -> String {
    format!("{:04}-{:02}-{:02}", number / 10_000, number / 100 % 100, number % 100)
}

/// 20261115060000 as 2026-11-15 06:00:00.
pub fn moment(number: u64) -> String {
    let clock = number % 1_000_000;
    format!("{} {:02}:{:02}:{:02}", day(number / 1_000_000), clock / 10_000, clock / 100 % 100, clock % 100)
}

pub fn letters(country: [u8; 2]) -> String {
    printable(&String::from_utf8_lossy(&country))
}

/// What a terminal may be shown: no control characters, and none that turn the direction of writing.
pub fn printable(text: &str) -> String {
    text.chars().map(|c| if hidden(c) { c.escape_unicode().to_string() } else { c.to_string() }).collect()
}

fn hidden(c: char) -> bool {
    c.is_control()
        || matches!(c, '\u{200b}'..='\u{200f}' | '\u{2028}'..='\u{202e}' | '\u{2060}'..='\u{206f}' | '\u{feff}')
}

/// Cut to a width, with dots where something was cut.
pub fn clip(text: &str, width: usize) -> String {
    if text.chars().count() <= width {
        return text.to_string();
    }
    let kept: String = text.chars().take(width.saturating_sub(2)).collect();
    kept + ".."
}

/// Words broken into lines, each behind an indent.
pub fn wrapped(text: &str, indent: usize) -> String {
    let mut out = String::new();
    let mut used = WIDTH;
    for word in text.split(' ') {
        let size = word.chars().count();
        if used.saturating_add(size) >= WIDTH {
            if !out.is_empty() {
                out.push('\n');
            }
            out.push_str(&" ".repeat(indent));
            used = indent;
        } else {
            out.push(' ');
            used += 1;
        }
        out.push_str(word);
        used = used.saturating_add(size);
    }
    out.push('\n');
    out
}

/// `1 byte`, `2 bytes`.
pub fn counted(number: usize, one: &str) -> String {
    match number {
        1 => format!("1 {one}"),
        _ => format!("{number} {}", plural(one)),
    }
}

fn plural(one: &str) -> String {
    match one.strip_suffix("ry") {
        Some(stem) => format!("{stem}ries"),
        None => format!("{one}s"),
    }
}
