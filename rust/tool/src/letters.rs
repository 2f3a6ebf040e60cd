//! The letters in the index of a version 2 image, beside those that its items report.

use crate::json::Json;
use crate::places::{Place, Told};
use crate::text::{counted, hex, octets};

/// The letters as text, where they are letters; `-` for none.
pub fn shown(letters: [u8; 2]) -> String {
    match letters {
        [0, 0] => "-".to_string(),
        [b'A'..=b'Z', b'A'..=b'Z'] => String::from_utf8_lossy(&letters).into_owned(),
        _ => octets(&letters),
    }
}

pub fn json(letters: [u8; 2]) -> Json {
    match letters {
        [0, 0] => Json::Null,
        [b'A'..=b'Z', b'A'..=b'Z'] => shown(letters).into(),
        _ => hex(&letters).into(),
    }
}

/// The letters that an item reports, none where it does not pass.
pub fn of(told: &Told<'_>) -> [u8; 2] {
    match told {
        Told::Certificate(told) => told.country,
        Told::Crl(told) => told.country,
        Told::Refused(_) => [0, 0],
    }
}

/// What the library's check said, and a line for each place whose letters are others than the item's.
pub fn checked(all_true: bool, places: &[Place<'_>]) -> String {
    let wrong: Vec<&Place<'_>> = places.iter().filter(|place| place.entry.country != of(&place.told)).collect();
    if all_true {
        return "LETTERS  true: each item has those that it reports, none where it does not pass\n".to_string();
    }
    let head = format!("LETTERS  false at {} of {}\n", wrong.len(), counted(places.len(), "place"));
    let line = |place: &&Place<'_>| {
        let right = match &place.told {
            Told::Refused(_) => "none is true: the item does not pass".to_string(),
            told => format!("{} is true", shown(of(told))),
        };
        format!("{:>5}  {:<5} stands in the index, {right}\n", place.number, shown(place.entry.country))
    };
    head + &wrong.iter().map(line).collect::<String>()
}
