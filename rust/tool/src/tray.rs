//! What a tray log says, record by record. Which records are faulty is the library's; here are the words for it.

use crate::text::day;

/// The bytes of a record.
pub const RECORD: usize = 8;
pub const OPEN: u8 = 1;
pub const LOAD: u8 = 2;
pub const BURN: u8 = 3;

/// A record's fields.
#[derive(Clone, Copy)]
pub struct Record {
    pub action: u8,
    pub unit: u8,
    pub padding: u16,
    pub day: u32,
}

impl Record {
    fn of(bytes: &[u8]) -> Option<Record> {
        let &[action, unit, a, b, c, d, e, f] = bytes else { return None };
        Some(Record { action, unit, padding: u16::from_be_bytes([a, b]), day: u32::from_be_bytes([c, d, e, f]) })
    }

    pub fn bytes(&self) -> [u8; RECORD] {
        let ([a, b], [c, d, e, f]) = (self.padding.to_be_bytes(), self.day.to_be_bytes());
        [self.action, self.unit, a, b, c, d, e, f]
    }
}

/// A tray, from its opening on.
pub struct Tray {
    /// The number of the record that opened it.
    pub record: usize,
    pub day: u32,
    /// The day of the image that was loaded last while it was open.
    pub image: Option<u32>,
    pub units: Vec<u8>,
}

/// A faulty record, and why it is.
pub struct Fault {
    pub number: usize,
    pub record: Record,
    pub reason: String,
}

/// The trays, and the faulty records, whose numbers are given.
pub fn told(log: &[u8], faulty: &[u64]) -> (Vec<Tray>, Vec<Fault>) {
    let (mut trays, mut faults): (Vec<Tray>, Vec<Fault>) = (Vec::new(), Vec::new());
    let mut image = None;
    let mut rest = faulty.iter().copied().peekable();
    for (number, record) in log.chunks_exact(RECORD).filter_map(Record::of).enumerate() {
        if rest.next_if_eq(&(number as u64)).is_some() {
            let reason = reason(record, trays.last(), image);
            faults.push(Fault { number, record, reason });
            continue;
        }
        match record.action {
            OPEN => trays.push(Tray { record: number, day: record.day, image, units: Vec::new() }),
            LOAD => image = Some(record.day),
            _ => trays.iter_mut().last().into_iter().for_each(|tray| tray.units.push(record.unit)),
        }
        trays.iter_mut().last().into_iter().for_each(|tray| tray.image = image);
    }
    (trays, faults)
}

/// The first rule that the record breaks.
fn reason(record: Record, tray: Option<&Tray>, image: Option<u32>) -> String {
    let Record { action, unit, padding, day: number } = record;
    if padding != 0 {
        return "the two bytes behind the unit are not zero".to_string();
    }
    match action {
        OPEN | LOAD if unit != 0 => "has a unit, which only a burn has".to_string(),
        OPEN | LOAD if !real(number) => "not a real day of 1950 to 2099".to_string(),
        OPEN => match tray {
            Some(tray) => format!("before {}, the day of the last opening", day(tray.day.into())),
            None => "cannot be opened".to_string(),
        },
        LOAD => "cannot be loaded".to_string(),
        BURN => burn(unit, number, tray, image),
        _ => "there is no such action".to_string(),
    }
}

fn burn(unit: u8, number: u32, tray: Option<&Tray>, image: Option<u32>) -> String {
    let Some(tray) = tray else {
        return if number != 0 { has_day() } else { "no tray is open".to_string() };
    };
    match image {
        _ if number != 0 => has_day(),
        None => "no image is loaded".to_string(),
        Some(image) if image != tray.day => {
            format!("image of {}, tray of {}", day(image.into()), day(tray.day.into()))
        }
        _ if !(1..=40).contains(&unit) => "there is no such unit: 1 to 40".to_string(),
        _ if tray.units.contains(&unit) => "burnt in this tray already".to_string(),
        _ => "cannot be burnt".to_string(),
    }
}

fn has_day() -> String {
    "has a day, which no burn has".to_string()
}

fn real(number: u32) -> bool {
    vrbolist::day_difference(number.into(), number.into()).is_ok()
}
