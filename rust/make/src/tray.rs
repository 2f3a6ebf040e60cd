//! Tray logs.

use crate::image::{self, BAD_DAYS};
use crate::random::Random;

/// The bytes of a record.
pub const RECORD: usize = 8;
pub const OPEN: u8 = 1;
pub const LOAD: u8 = 2;
pub const BURN: u8 = 3;
/// The units of a tray.
pub const UNITS: u8 = 40;

/// A record's bytes.
pub fn record(action: u8, unit: u8, day: u32) -> [u8; RECORD] {
    let [a, b, c, d] = day.to_be_bytes();
    [action, unit, 0, 0, a, b, c, d]
}

/// A log of so many records without a fault: trays of one day after the other, each with an image of its day and all units.
pub fn nights(records: usize, first: u32) -> Vec<u8> {
    let mut log = Vec::with_capacity(records * RECORD);
    let mut day = first;
    while log.len() < records * RECORD {
        log.extend(record(OPEN, 0, day));
        log.extend(record(LOAD, 0, day));
        for unit in 1..=UNITS {
            log.extend(record(BURN, unit, 0));
        }
        day = after(day);
    }
    log.truncate(records * RECORD);
    log
}

/// A later day: the next of the month to the 28th, then the first of the next month; the last stays.
fn after(day: u32) -> u32 {
    let (year, month, of_month) = (day / 10_000, day / 100 % 100, day % 100);
    match (year, month, of_month) {
        (_, _, ..=27) => day + 1,
        (_, ..=11, _) => year * 10_000 + (month + 1) * 100 + 1,
        (..=2098, ..) => (year + 1) * 10_000 + 101,
        _ => day,
    }
}

/// A log, mostly of good records, with faults of every kind between them.
pub fn varied(random: &mut Random) -> Vec<u8> {
    let mut day = image::day(random) as u32;
    let mut log = Vec::new();
    let records = if random.percent(10) { random.below(3) } else { random.below(120) };
    let faults = *random.pick(&[0, 3, 10, 40]);
    let mut unit = 0;
    while log.len() < records * RECORD {
        let mut made = match random.below(40) {
            0 => {
                day = if random.percent(80) { after(day) } else { day };
                unit = 0;
                log.extend(record(OPEN, 0, day));
                record(LOAD, 0, day)
            }
            1 => {
                unit = 0;
                record(OPEN, 0, day)
            }
            2 => record(LOAD, 0, day),
            _ => {
                unit = unit % UNITS + 1;
                record(BURN, unit, 0)
            }
        };
        if random.percent(faults) {
            spoil(random, &mut made, day);
        }
        log.extend(made);
    }
    match random.below(20) {
        0 => log.truncate(log.len().saturating_sub(random.between(1, 7))),
        1 => log.extend(random.octets(random_tail(records))),
        _ => {}
    }
    log
}

/// One to seven octets more.
fn random_tail(records: usize) -> usize {
    records % 7 + 1
}

/// A record that is faulty, or good by chance.
fn spoil(random: &mut Random, made: &mut [u8; RECORD], day: u32) {
    match random.below(9) {
        0 => made[0] = *random.pick(&[0, 4, 255]),
        1 => made[1] = *random.pick(&[0, 41, 42, 63, 64, 65, 104, 105, 255]),
        2 => made[random.between(2, 3)] = random.octet(),
        3 => made[random.between(4, 7)] ^= 1 << random.below(8),
        4 => *made = record(OPEN, 0, image::day(random) as u32),
        5 => *made = record(LOAD, 0, image::day(random) as u32),
        6 => *made = record(*random.pick(&[OPEN, LOAD]), random.below(2) as u8, *random.pick(BAD_DAYS) as u32),
        7 => *made = record(BURN, random.between(0, 41) as u8, *random.pick(&[0, 0, 1, day])),
        _ => *made = random.octets(RECORD).try_into().expect("8 octets"),
    }
}
