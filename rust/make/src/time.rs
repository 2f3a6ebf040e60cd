//! Time elements.

use crate::der::{element, GENERALIZED_TIME, UTC_TIME};
use crate::random::Random;

/// The right element for YYYYMMDDHHMMSS of 1950 to 9999.
pub fn time(moment: u64) -> Vec<u8> {
    let digits = format!("{moment:014}Z");
    if moment < 20500101000000 {
        element(UTC_TIME, &digits.as_bytes()[2..])
    } else {
        element(GENERALIZED_TIME, digits.as_bytes())
    }
}

/// A UTCTime with any contents.
pub fn utc(text: &str) -> Vec<u8> {
    element(UTC_TIME, text.as_bytes())
}

/// A GeneralizedTime with any contents.
pub fn generalized(text: &str) -> Vec<u8> {
    element(GENERALIZED_TIME, text.as_bytes())
}

/// Contents that are no time of any form, by tag.
pub const BAD: &[(u8, &str)] = &[
    (UTC_TIME, ""),
    (UTC_TIME, "2403011200Z"),
    (UTC_TIME, "240301120000"),
    (UTC_TIME, "240301120000z"),
    (UTC_TIME, "2403011200000"),
    (UTC_TIME, "240301120000Z0"),
    (UTC_TIME, "240301120000+0000"),
    (UTC_TIME, "240001120000Z"),
    (UTC_TIME, "241301120000Z"),
    (UTC_TIME, "240300120000Z"),
    (UTC_TIME, "240332120000Z"),
    (UTC_TIME, "240431120000Z"),
    (UTC_TIME, "240631120000Z"),
    (UTC_TIME, "240931120000Z"),
    (UTC_TIME, "241131120000Z"),
    (UTC_TIME, "240230120000Z"),
    (UTC_TIME, "230229120000Z"),
    (UTC_TIME, "240301240000Z"),
    (UTC_TIME, "240301126000Z"),
    (UTC_TIME, "240301120060Z"),
    (UTC_TIME, " 40301120000Z"),
    (UTC_TIME, "2403011200:0Z"),
    (UTC_TIME, "2403011200/0Z"),
    (UTC_TIME, "24030112000 Z"),
    (UTC_TIME, "20240301120000Z"),
    (GENERALIZED_TIME, ""),
    (GENERALIZED_TIME, "20491231235959Z"),
    (GENERALIZED_TIME, "19991231235959Z"),
    (GENERALIZED_TIME, "00000101000000Z"),
    (GENERALIZED_TIME, "205001011200Z"),
    (GENERALIZED_TIME, "20500101120000"),
    (GENERALIZED_TIME, "20500101120000.5Z"),
    (GENERALIZED_TIME, "20500101120000+"),
    (GENERALIZED_TIME, "20501301120000Z"),
    (GENERALIZED_TIME, "20500001120000Z"),
    (GENERALIZED_TIME, "20500100120000Z"),
    (GENERALIZED_TIME, "20500229120000Z"),
    (GENERALIZED_TIME, "21000229120000Z"),
    (GENERALIZED_TIME, "20500101240000Z"),
    (GENERALIZED_TIME, "20500101126000Z"),
    (GENERALIZED_TIME, "20500101120060Z"),
    (GENERALIZED_TIME, "2050010112000AZ"),
    (GENERALIZED_TIME, "240301120000Z"),
];

/// A time element of a wrong form.
pub fn bad(random: &mut Random) -> Vec<u8> {
    let (tag, text) = random.pick(BAD);
    element(*tag, text.as_bytes())
}

/// A real moment of these years.
pub fn moment(random: &mut Random, first_year: usize, last_year: usize) -> u64 {
    let year = random.between(first_year, last_year);
    let month = random.between(1, 12);
    let leap = year % 4 == 0 && (year % 100 != 0 || year % 400 == 0);
    let last = match month {
        4 | 6 | 9 | 11 => 30,
        2 if leap => 29,
        2 => 28,
        _ => 31,
    };
    let day = if random.percent(20) { last } else { random.between(1, last) };
    let (hour, minute, second) = (random.below(24), random.below(60), random.below(60));
    (((((year * 100 + month) * 100 + day) * 100 + hour) * 100 + minute) * 100 + second) as u64
}

/// The next second of a moment, for moments inside a minute.
pub fn second_after(moment: u64) -> u64 {
    if moment % 100 < 59 {
        moment + 1
    } else if moment / 100 % 100 < 59 {
        moment + 41
    } else {
        moment
    }
}

/// The second before a moment, for moments inside an hour.
pub fn second_before(moment: u64) -> u64 {
    if moment % 100 > 0 {
        moment - 1
    } else if moment / 100 % 100 > 0 {
        moment - 41
    } else {
        moment
    }
}

/// Numbers that are no moment of 1950 to 2099.
pub const BAD_MOMENTS: [u64; 9] = [
    0,
    20240301,
    20240230120000,
    20240301240000,
    20240301126000,
    20240301120060,
    19491231235959,
    21000101000000,
    u64::MAX,
];
