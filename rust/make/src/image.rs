//! Trust images, good and broken.

use crate::random::Random;
use crate::Break;

/// What goes into an image.
#[derive(Clone, Debug)]
pub struct Image {
    pub items: Vec<Vec<u8>>,
    pub kinds: Vec<u8>,
    pub flags: Vec<u8>,
    /// Those of each item; version 1 has no room for them.
    pub letters: Vec<[u8; 2]>,
    pub version: u16,
    pub day: u32,
}

impl Image {
    pub fn new(day: u32) -> Image {
        Image { items: Vec::new(), kinds: Vec::new(), flags: Vec::new(), letters: Vec::new(), version: 1, day }
    }

    /// Adds an item without letters.
    pub fn add(&mut self, kind: u8, flags: u8, item: Vec<u8>) {
        self.add_of(kind, flags, [0, 0], item)
    }

    /// Adds an item.
    pub fn add_of(&mut self, kind: u8, flags: u8, letters: [u8; 2], item: Vec<u8>) {
        self.items.push(item);
        self.kinds.push(kind);
        self.flags.push(flags);
        self.letters.push(letters);
    }

    pub fn lengths(&self) -> Vec<u32> {
        self.items.iter().map(|item| item.len() as u32).collect()
    }

    /// The column of letters: zeros in version 1.
    pub fn column(&self) -> Vec<u8> {
        match self.version {
            1 => vec![0; 2 * self.letters.len()],
            _ => self.letters.concat(),
        }
    }

    /// The same in another version.
    pub fn of_version(&self, version: u16) -> Image {
        Image { version, ..self.clone() }
    }

    /// The image.
    pub fn encode(&self) -> Vec<u8> {
        let mut out = self.items.concat();
        let start = out.len() as u32;
        let mut offset = 0u32;
        for (place, item) in self.items.iter().enumerate() {
            out.extend([self.kinds[place], self.flags[place]]);
            out.extend((item.len() as u16).to_be_bytes());
            out.extend(offset.to_be_bytes());
            if self.version == 2 {
                out.extend(self.letters[place]);
                out.extend([0, 0]);
            }
            offset += item.len() as u32;
        }
        out.extend(start.to_be_bytes());
        out.extend((self.items.len() as u16).to_be_bytes());
        out.extend(self.version.to_be_bytes());
        out.extend(self.day.to_be_bytes());
        out
    }

    /// A good image of items that are no DER, of either version, with any letters.
    pub fn varied(random: &mut Random) -> Image {
        let mut made = Image { version: random.between(1, 2) as u16, ..Image::new(day(random)) };
        let entries = match random.below(10) {
            0 => 0,
            1 => 96,
            2 => 95,
            _ => random.below(12),
        };
        for _ in 0..entries {
            let kind = random.between(1, 4) as u8;
            let flags = if kind == 1 { random.below(2) as u8 } else { 0 };
            let length = if random.percent(1) { 16_384 } else { random.between(1, 40) };
            let letters = letters(random);
            made.add_of(kind, flags, letters, vec![random.octet(); length]);
        }
        made
    }

    /// An image of 16 items that are no DER and have this many bytes in version 2.
    pub fn long(random: &mut Random, bytes: usize) -> Image {
        let mut made = Image::new(day(random));
        for _ in 0..15 {
            made.add(4, 0, vec![random.octet(); 16_384]);
        }
        made.add(4, 0, vec![random.octet(); bytes - 12 - 12 * 16 - 15 * 16_384]);
        made
    }
}

/// None, two of A to Z, or any two octets.
pub fn letters(random: &mut Random) -> [u8; 2] {
    match random.below(4) {
        0 => [0, 0],
        1 => [random.octet(), random.octet()],
        _ => [b'A' + random.below(26) as u8, b'A' + random.below(26) as u8],
    }
}

/// A real day of 1950 to 2099.
pub fn day(random: &mut Random) -> u32 {
    match random.below(8) {
        0 => 19500101,
        1 => 20991231,
        2 => 20240229,
        _ => (crate::time::moment(random, 1950, 2099) / 1_000_000) as u32,
    }
}

/// Numbers that are no day of 1950 to 2099.
pub const BAD_DAYS: &[u64] = &[
    0,
    1,
    19491231,
    21000101,
    20240230,
    20230229,
    20240431,
    20240001,
    20241301,
    20240100,
    20240132,
    21000229,
    99991231,
    120240301,
    4_315_207_597,
    u32::MAX as u64,
    u64::MAX,
];

fn put(image: &mut [u8], back: usize, bytes: &[u8]) {
    if let Some(at) = image.len().checked_sub(back) {
        image[at..at + bytes.len()].copy_from_slice(bytes);
    }
}

/// The octets of an index entry, as the trailer tells the version.
pub fn width(image: &[u8]) -> usize {
    let version = image.len().checked_sub(6).map(|at| [image[at], image[at + 1]]);
    if version == Some([0, 2]) {
        12
    } else {
        8
    }
}

/// How far before the end of the image a random index entry stands.
fn some_entry(image: &[u8], random: &mut Random) -> Option<usize> {
    let trailer = image.len().checked_sub(12)?;
    let entries = u16::from_be_bytes([image[trailer + 4], image[trailer + 5]]) as usize;
    let width = width(image);
    (entries > 0 && width * entries <= trailer).then(|| 12 + width * random.between(1, entries))
}

/// Writes the other version into the trailer.
fn label(image: &mut [u8]) {
    let other = if width(image) == 12 { 1 } else { 2 };
    put(image, 6, &[0, other]);
}

const fn way(rule: u64, what: &'static str, apply: fn(&mut Vec<u8>, &mut Random)) -> Break<Vec<u8>> {
    Break { rule, what, roles: &[], apply }
}

/// Ways to break a rule of an image of either version. That of the label and those of rules 6 and 7 need two entries.
pub const BREAKS: &[Break<Vec<u8>>] = &[
    way(1, "too short", |image, random| image.truncate(random.below(12))),
    way(1, "too long", |image, _| image.resize(262_145, 0)),
    way(2, "another version", |image, random| {
        let version = random.between(3, 65_535) as u16;
        put(image, 6, &version.to_be_bytes())
    }),
    way(2, "version 0", |image, _| put(image, 6, &[0, 0])),
    way(3, "too many entries", |image, random| {
        let entries = random.between(97, 65_535) as u16;
        put(image, 8, &entries.to_be_bytes())
    }),
    way(3, "97 entries", |image, _| put(image, 8, &[0, 97])),
    way(4, "no real day", |image, random| {
        let day = *random.pick(&BAD_DAYS[..12]) as u32;
        put(image, 4, &day.to_be_bytes())
    }),
    way(5, "one byte more", |image, random| {
        let octet = random.octet();
        image.insert(0, octet)
    }),
    way(5, "one byte less", |image, _| {
        if image.len() > 12 {
            image.remove(0);
        } else {
            image.insert(0, 0);
        }
    }),
    way(5, "another index start", |image, random| {
        let add = random.between(1, 255) as u8;
        if let Some(trailer) = image.len().checked_sub(12) {
            let at = trailer + random.below(4);
            image[at] = image[at].wrapping_add(add);
        }
    }),
    way(5, "the other version's label", |image, _| label(image)),
    way(6, "another kind", |image, random| {
        if let Some(back) = some_entry(image, random) {
            put(image, back, &[*random.pick(&[0, 5, 6, 255])]);
        }
    }),
    way(6, "other flags", |image, random| {
        if let Some(back) = some_entry(image, random) {
            put(image, back - 1, &[*random.pick(&[2, 3, 128, 255])]);
        }
    }),
    way(6, "length 0", |image, random| {
        if let Some(back) = some_entry(image, random) {
            put(image, back - 2, &[0, 0]);
        }
    }),
    way(6, "length too long", |image, random| {
        if let Some(back) = some_entry(image, random) {
            let length = random.between(16_385, 65_535) as u16;
            put(image, back - 2, &length.to_be_bytes());
        }
    }),
    way(6, "another offset", |image, random| {
        if let Some(back) = some_entry(image, random) {
            let at = image.len() - back + 4 + random.below(4);
            image[at] = image[at].wrapping_add(random.between(1, 255) as u8);
        }
    }),
    way(7, "last length one more", |image, random| {
        if some_entry(image, random).is_some() {
            let at = image.len() - 12 - width(image) + 2;
            let length = u16::from_be_bytes([image[at], image[at + 1]]);
            let changed = if length < 16_384 { length + 1 } else { length - 1 };
            image[at..at + 2].copy_from_slice(&changed.to_be_bytes());
        }
    }),
];

/// Ways to break a rule that version 2 alone has.
pub const BREAKS_OF_2: &[Break<Vec<u8>>] = &[way(6, "padding not zero", |image, random| {
    if let Some(back) = some_entry(image, random) {
        put(image, back - 10 - random.below(2), &[random.between(1, 255) as u8]);
    }
})];

/// The other version's label, with an index start that lets the index fit: entries of the wrong width are read.
pub fn confuse(image: &mut [u8]) {
    let Some(trailer) = image.len().checked_sub(12) else { return };
    let number = |at: usize| u32::from_be_bytes([image[at], image[at + 1], image[at + 2], image[at + 3]]);
    let (start, entries) = (number(trailer), number(trailer + 4) >> 16);
    let moved = match width(image) {
        8 => start.wrapping_sub(4 * entries),
        _ => start.wrapping_add(4 * entries),
    };
    put(image, 12, &moved.to_be_bytes());
    label(image);
}

/// Other letters for one item of an image of version 2.
pub fn mislead(image: &mut [u8], random: &mut Random) {
    let found = some_entry(image, random).zip(some_entry(image, random)).filter(|_| width(image) == 12);
    let Some((here, there)) = found else { return };
    let (here, there) = (image.len() - here + 8, image.len() - there + 8);
    let at = here + random.below(2);
    match random.below(4) {
        0 => image[here..here + 2].fill(0),
        1 => image.copy_within(there..there + 2, here),
        2 => image[at] = b'A' + random.below(26) as u8,
        _ => image[at] ^= 1 << random.below(8),
    }
}

/// The letters of some entry of an image of version 2, else two zeros.
pub fn letters_in(image: &[u8], random: &mut Random) -> [u8; 2] {
    let back = some_entry(image, random).filter(|_| width(image) == 12);
    back.map_or([0, 0], |back| [image[image.len() - back + 8], image[image.len() - back + 9]])
}

/// Another kind for one item.
pub fn rename(image: &mut [u8], random: &mut Random) {
    if let Some(back) = some_entry(image, random) {
        put(image, back, &[random.between(1, 4) as u8, 0]);
    }
}
