//! The table of verdicts: n x n bytes 0 or 1, or n lines of n digits.

use crate::stop::Stop;

/// Whether a table file is written in digits.
pub fn digits(file: &[u8]) -> bool {
    let written = file.iter().any(|b| !b.is_ascii_whitespace());
    written && file.iter().all(|b| b.is_ascii_digit() || b.is_ascii_whitespace())
}

/// So many lines of digits.
pub fn lines(verdicts: &[u8], count: u64) -> Vec<u8> {
    let rows = verdicts.chunks(usize::try_from(count).unwrap_or(usize::MAX).max(1));
    rows.flat_map(|row| row.iter().map(|verdict| b'0'.saturating_add(*verdict)).chain([b'\n'])).collect()
}

/// The bytes of a table file. Whether they fit an image, and are 0 or 1, is for the library.
pub fn read(file: Vec<u8>) -> Result<Vec<u8>, Stop> {
    if !digits(&file) {
        return Ok(file);
    }
    let lines = file.split(|b| *b == b'\n').map(<[u8]>::trim_ascii).filter(|line| !line.is_empty());
    let rows: Vec<&[u8]> = lines.collect();
    for (n, row) in rows.iter().enumerate() {
        if row.len() != rows.len() || !row.iter().all(u8::is_ascii_digit) {
            let (lines, line) = (rows.len(), n + 1);
            return Err(Stop::usage(format!("the table has {lines} lines, but line {line} has not {lines} digits")));
        }
    }
    Ok(rows.concat().iter().map(|digit| digit - b'0').collect())
}
