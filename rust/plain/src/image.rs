//! Reading a trust image.

use crate::calendar::day_real;
use crate::der::ITEM_LIMIT;
use crate::refusal::Refusal;

pub(crate) const TRAILER: usize = 12;
/// The most entries.
pub(crate) const PLACES: usize = 96;
pub(crate) const IMAGE_LIMIT: usize = 262_144;

pub(crate) const ANCHOR: u8 = 1;
pub(crate) const LINK: u8 = 2;
pub(crate) const SIGNER: u8 = 3;
pub(crate) const CRL: u8 = 4;

/// The answer about an image.
#[derive(Clone, Copy, Debug, Default, PartialEq, Eq)]
pub struct Image {
    pub number: u64,
    pub detail: u64,
    pub entries: u64,
    /// YYYYMMDD.
    pub day: u64,
    /// 1 or 2.
    pub version: u64,
}

/// The answer about one entry.
#[derive(Clone, Copy, Debug, Default, PartialEq, Eq)]
pub struct Entry {
    pub number: u64,
    pub detail: u64,
    pub kind: u64,
    pub flags: u64,
    pub length: u64,
    pub offset: u64,
    /// The letters in the index; zeros in version 1.
    pub country: [u8; 2],
}

/// Judges an image.
pub fn image(image: &[u8]) -> Image {
    image_answer(read(image))
}

/// Judges an image that must be of a wanted day: 1, then 5, then 6.
pub fn image_for_day(image: &[u8], wanted: u64) -> Image {
    if !day_real(wanted) {
        return image_answer(Err(Refusal::ARGUMENT));
    }
    let read = read(image);
    image_answer(read.and_then(|open| if open.day == wanted { Ok(open) } else { Err(Refusal::DAY) }))
}

fn image_answer(read: Result<Open, Refusal>) -> Image {
    match read {
        Ok(open) => {
            Image { number: 0, detail: 0, entries: open.entries as u64, day: open.day, version: open.version as u64 }
        }
        Err(Refusal { number, detail }) => Image { number, detail, ..Image::default() },
    }
}

/// One entry of an image: the image's 5, then 1 for a place that is not there.
pub fn entry(image: &[u8], place: u64) -> Entry {
    let found = read(image).and_then(|open| {
        if place < open.entries as u64 {
            Ok(open.line(place as usize))
        } else {
            Err(Refusal::ARGUMENT)
        }
    });
    match found {
        Ok(line) => Entry {
            number: 0,
            detail: 0,
            kind: line.kind as u64,
            flags: line.flags as u64,
            length: line.length as u64,
            offset: line.offset as u64,
            country: line.country,
        },
        Err(Refusal { number, detail }) => Entry { number, detail, ..Entry::default() },
    }
}

/// The octets of an index entry.
#[inline(always)]
pub(crate) fn width(version: u16) -> usize {
    if version == 2 {
        12
    } else {
        8
    }
}

/// A good image.
#[derive(Clone, Copy)]
pub(crate) struct Open<'a> {
    pub image: &'a [u8],
    pub entries: usize,
    pub day: u64,
    pub version: u16,
    index: &'a [u8],
}

/// What one index entry says.
#[derive(Clone, Copy)]
pub(crate) struct Line {
    pub kind: u8,
    pub flags: u8,
    pub length: usize,
    pub offset: usize,
    pub country: [u8; 2],
    /// What stands behind the letters.
    padding: [u8; 2],
}

impl Line {
    #[inline(always)]
    fn of(octets: &[u8]) -> Line {
        let (kind, flags, length, offset, [first, second, padding @ ..]) = match *octets {
            [kind, flags, l0, l1, o0, o1, o2, o3] => (kind, flags, [l0, l1], [o0, o1, o2, o3], [0; 4]),
            [kind, flags, l0, l1, o0, o1, o2, o3, c0, c1, p0, p1] => {
                (kind, flags, [l0, l1], [o0, o1, o2, o3], [c0, c1, p0, p1])
            }
            _ => unreachable!("an index entry has 8 or 12 octets"),
        };
        let (length, offset) = (u16::from_be_bytes(length) as usize, u32::from_be_bytes(offset) as usize);
        Line { kind, flags, length, offset, country: [first, second], padding }
    }
}

impl<'a> Open<'a> {
    /// The index entry at a place.
    #[inline(always)]
    pub fn line(&self, place: usize) -> Line {
        Line::of(self.octets(place))
    }

    /// The octets of the index entry at a place.
    #[inline(always)]
    pub fn octets(&self, place: usize) -> &'a [u8] {
        let width = width(self.version);
        &self.index[width * place..width * (place + 1)]
    }

    /// The item at a place.
    #[inline(always)]
    pub fn item(&self, place: usize) -> &'a [u8] {
        let line = self.line(place);
        &self.image[line.offset..line.offset + line.length]
    }

    /// All items, back to back.
    pub fn packed(&self) -> &'a [u8] {
        &self.image[..self.image.len() - TRAILER - self.index.len()]
    }
}

/// Whether kind and flags may stand together.
#[inline(always)]
pub(crate) fn kind_and_flags_good(kind: u8, flags: u8) -> bool {
    match kind {
        ANCHOR => flags <= 1,
        LINK | SIGNER | CRL => flags == 0,
        _ => false,
    }
}

/// An image of either version.
#[inline(always)]
pub(crate) fn read(image: &[u8]) -> Result<Open<'_>, Refusal> {
    read_of(image, |version| version == 1 || version == 2)
}

/// An image of one version: rule 2 is broken by any other.
pub(crate) fn read_as(image: &[u8], wanted: u16) -> Result<Open<'_>, Refusal> {
    read_of(image, |version| version == wanted)
}

/// The image rules in order.
#[inline(always)]
fn read_of(image: &[u8], version_good: impl Fn(u16) -> bool) -> Result<Open<'_>, Refusal> {
    let broken = |rule| Err(Refusal::image(rule));
    // 1: 12 to 262,144 bytes.
    if image.len() < TRAILER || image.len() > IMAGE_LIMIT {
        return broken(1);
    }
    let (before, trailer) = image.split_at(image.len() - TRAILER);
    let number = |at: usize| u32::from_be_bytes([trailer[at], trailer[at + 1], trailer[at + 2], trailer[at + 3]]);
    let (start, day) = (number(0) as u64, number(8) as u64);
    let (entries, version) = ((number(4) >> 16) as usize, number(4) as u16);
    // 2: a version that is read.
    if !version_good(version) {
        return broken(2);
    }
    // 3: at most 96 entries.
    if entries > PLACES {
        return broken(3);
    }
    // 4: a real day.
    if !day_real(day) {
        return broken(4);
    }
    // 5: the index fills the bytes between the items and the trailer.
    if start + (width(version) * entries) as u64 != before.len() as u64 {
        return broken(5);
    }
    let index = &before[start as usize..];
    // 6: each entry; 7: all lengths sum to the index start.
    let sum = if version == 2 { summed::<12>(index) } else { summed::<8>(index) };
    match sum {
        None => broken(6),
        Some(sum) if sum as u64 != start => broken(7),
        Some(_) => Ok(Open { image, entries, day, version, index }),
    }
}

/// The sum of all lengths, where every entry is good: its offset is the sum of the lengths before it, and behind the
/// letters stand zeros. The letters themselves are free.
fn summed<const WIDTH: usize>(index: &[u8]) -> Option<usize> {
    let mut sum = 0;
    for octets in index.chunks_exact(WIDTH) {
        let line = Line::of(octets);
        let length_good = line.length >= 1 && line.length <= ITEM_LIMIT;
        let fields_good = kind_and_flags_good(line.kind, line.flags) && length_good;
        if !fields_good || line.offset != sum || line.padding != [0, 0] {
            return None;
        }
        sum += line.length;
    }
    Some(sum)
}
