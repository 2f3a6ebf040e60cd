//! UTCTime and GeneralizedTime (certificate rule 7).

use crate::calendar::date_real;
use crate::der::{GENERALIZED_TIME, UTC_TIME};

/// The time as the number YYYYMMDDHHMMSS, if it has the form of its tag.
#[inline(always)]
pub(crate) fn time(tag: u8, contents: &[u8]) -> Option<u64> {
    match tag {
        UTC_TIME => utc_time(contents.try_into().ok()?),
        GENERALIZED_TIME => generalized_time(contents.try_into().ok()?),
        _ => None,
    }
}

/// YYMMDDHHMMSSZ; 00 to 49 mean 2000 to 2049, 50 to 99 mean 1950 to 1999.
#[inline(always)]
fn utc_time(octets: &[u8; 13]) -> Option<u64> {
    let upper = digit_pairs(eight(octets.first_chunk()?))?;
    let lower = digit_pairs(four(octets[8..].first_chunk()?))?;
    let short = pair(upper, 0);
    let year = if short < 50 { 2000 + short } else { 1900 + short };
    if octets[12] != b'Z' {
        return None;
    }
    moment(year, pair(upper, 1), pair(upper, 2), pair(upper, 3), pair(lower, 0), pair(lower, 1))
}

/// YYYYMMDDHHMMSSZ, only for 2050 on.
#[inline(always)]
fn generalized_time(octets: &[u8; 15]) -> Option<u64> {
    let upper = digit_pairs(eight(octets.first_chunk()?))?;
    // The last six digits after two that were read already.
    let lower = digit_pairs(eight(octets[6..].first_chunk()?))?;
    let year = pair(upper, 0) * 100 + pair(upper, 1);
    if octets[14] != b'Z' || year < 2050 {
        return None;
    }
    moment(year, pair(upper, 2), pair(upper, 3), pair(lower, 1), pair(lower, 2), pair(lower, 3))
}

/// A real calendar date, hours to 23, minutes and seconds to 59.
#[inline(always)]
fn moment(year: u32, month: u32, day: u32, hour: u32, minute: u32, second: u32) -> Option<u64> {
    if !date_real(year, month, day) || hour > 23 || minute > 59 || second > 59 {
        return None;
    }
    let date = (year * 10_000 + month * 100 + day) as u64;
    Some(date * 1_000_000 + (hour * 10_000 + minute * 100 + second) as u64)
}

/// Eight octets as one number, the first lowest.
#[inline(always)]
fn eight(octets: &[u8; 8]) -> u64 {
    u64::from_le_bytes(*octets)
}

/// Four octets and four digits 0 as one number, the first lowest.
#[inline(always)]
fn four(octets: &[u8; 4]) -> u64 {
    u32::from_le_bytes(*octets) as u64 | 0x3030_3030_0000_0000
}

/// Eight octets, the first lowest, as four two-digit numbers in every second
/// octet, if all eight are digits.
#[inline(always)]
fn digit_pairs(octets: u64) -> Option<u64> {
    let values = octets ^ 0x3030_3030_3030_3030;
    let over_nine = values.wrapping_add(0x0606_0606_0606_0606) | values;
    if over_nine & 0xF0F0_F0F0_F0F0_F0F0 != 0 {
        return None;
    }
    Some((values * 10 + (values >> 8)) & 0x00FF_00FF_00FF_00FF)
}

/// The number at a place of `digit_pairs`.
#[inline(always)]
fn pair(pairs: u64, place: u32) -> u32 {
    (pairs >> (16 * place)) as u32 & 0xFF
}
