//! The enabled anchors of a country: by the letters that they report, or by those of the index.

use crate::image::{read, read_as, Line, Open, ANCHOR, PLACES};
use crate::letters::true_letters;
use crate::refusal::Refusal;

/// The answer: how many places, and these in ascending order.
#[derive(Clone, Copy, Debug, PartialEq, Eq)]
pub struct Anchors {
    pub number: u64,
    pub detail: u64,
    pub count: u64,
    pub places: [u8; PLACES],
}

/// Those that pass their profile and report the letters. Refusals in order: 1, 5.
pub fn anchors(image: &[u8], first: u64, second: u64) -> Anchors {
    answer(country(first, second).and_then(|country| {
        let open = read(image)?;
        Ok(listed(&open, |place, _| true_letters(&open, place) == country))
    }))
}

/// Those of which the index tells the letters, of an image of version 2. Refusals in order: 1, 5.
pub fn anchors_by_index(image: &[u8], first: u64, second: u64) -> Anchors {
    answer(
        country(first, second).and_then(|country| Ok(listed(&read_as(image, 2)?, |_, line| line.country == country))),
    )
}

/// Two letters from A to Z.
fn country(first: u64, second: u64) -> Result<[u8; 2], Refusal> {
    match (u8::try_from(first), u8::try_from(second)) {
        (Ok(first @ b'A'..=b'Z'), Ok(second @ b'A'..=b'Z')) => Ok([first, second]),
        _ => Err(Refusal::ARGUMENT),
    }
}

/// The enabled anchors that pass a test.
fn listed(open: &Open, test: impl Fn(usize, &Line) -> bool) -> Anchors {
    let mut found = Anchors { number: 0, detail: 0, count: 0, places: [255; PLACES] };
    for place in 0..open.entries {
        let line = open.line(place);
        if line.kind == ANCHOR && line.flags == 1 && test(place, &line) {
            found.places[found.count as usize] = place as u8;
            found.count += 1;
        }
    }
    found
}

fn answer(told: Result<Anchors, Refusal>) -> Anchors {
    told.unwrap_or_else(|Refusal { number, detail }| Anchors { number, detail, count: 0, places: [255; PLACES] })
}
