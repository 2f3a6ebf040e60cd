//! The replay of a tray log.

use crate::calendar::day_real;
use crate::refusal::Refusal;

/// The bytes of a record.
const RECORD: usize = 8;
/// The units of a tray.
const UNITS: u8 = 40;
/// The upper half of a record that opens a tray or loads an image, and the first byte of one that burns.
const OPEN: u64 = 1 << 24;
const LOAD: u64 = 2 << 24;
const BURN: u64 = 3;
/// Where a record has its unit.
const UNIT: u64 = 0xFF << 48;

/// The replay's answer.
#[derive(Clone, Copy, Debug, Default, PartialEq, Eq)]
pub struct Replayed {
    pub number: u64,
    pub detail: u64,
    /// How many records are faulty.
    pub faulty: u64,
}

/// The bench as the records leave it.
#[derive(Clone, Copy, Default)]
struct Bench {
    /// The open tray's day, 0 before any.
    tray: u32,
    /// The loaded image's day, 0 before any.
    image: u32,
    /// A bit for each unit of the tray.
    burnt: u64,
}

impl Bench {
    /// Does what the record says; false, and nothing done, if it is faulty.
    #[inline(always)]
    fn take(&mut self, record: u64) -> bool {
        let unit = (record >> 48) as u8;
        // A burn has neither day nor anything in the two bytes.
        if record & !UNIT == BURN << 56 {
            let bit = 1 << (unit & 63);
            let known = unit.wrapping_sub(1) < UNITS;
            let good = known && self.tray != 0 && self.image == self.tray && self.burnt & bit == 0;
            if good {
                self.burnt |= bit;
            }
            return good;
        }
        let day = record as u32;
        match record >> 32 {
            // Unit and the two bytes are 0 in both.
            OPEN if day >= self.tray && day_real(day.into()) => {
                self.tray = day;
                self.burnt = 0;
                true
            }
            LOAD if day_real(day.into()) => {
                self.image = day;
                true
            }
            _ => false,
        }
    }
}

/// The numbers of the faulty records, each given to `each`.
#[inline(always)]
fn faulty(log: &[u8], mut each: impl FnMut(usize)) {
    let mut bench = Bench::default();
    for (number, record) in log.chunks_exact(RECORD).enumerate() {
        let record: [u8; RECORD] = record.try_into().expect("8 bytes");
        if !bench.take(u64::from_be_bytes(record)) {
            each(number);
        }
    }
}

/// Replays a log and lists the faulty records; a list that has room for all records is filled in one pass.
pub fn replay(log: &[u8], list: &mut [u64]) -> Replayed {
    let refused = |Refusal { number, detail }| Replayed { number, detail, faulty: 0 };
    if log.len() % RECORD != 0 {
        return refused(Refusal::ARGUMENT);
    }
    if list.len() < log.len() / RECORD {
        let mut count = 0;
        faulty(log, |_| count += 1);
        if list.len() < count {
            return refused(Refusal::OUTPUT);
        }
        if count == 0 {
            return Replayed::default();
        }
    }
    let mut count = 0;
    faulty(log, |number| {
        list[count] = number as u64;
        count += 1;
    });
    Replayed { number: 0, detail: 0, faulty: count as u64 }
}
