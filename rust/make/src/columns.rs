//! What a writer of images is given, good or not.

use crate::image::{Image, BAD_DAYS};
use crate::random::Random;

/// Items back to back, the columns of the index, a version and a day.
pub struct Columns {
    pub items: Vec<u8>,
    pub kinds: Vec<u8>,
    pub flags: Vec<u8>,
    pub lengths: Vec<u32>,
    pub letters: Vec<u8>,
    pub version: u64,
    pub day: u64,
}

/// Versions that there are not; some become one where a number is cut.
pub const BAD_VERSIONS: &[u64] = &[0, 3, 255, 256, 257, 258, 65_537, 65_538, 1 << 32 | 1, 1 << 32 | 2, u64::MAX];

impl Columns {
    /// Those of an image.
    pub fn of(made: &Image) -> Columns {
        Columns {
            items: made.items.concat(),
            kinds: made.kinds.clone(),
            flags: made.flags.clone(),
            lengths: made.lengths(),
            letters: made.column(),
            version: made.version as u64,
            day: made.day as u64,
        }
    }

    /// The bytes of the image.
    pub fn needed(&self) -> usize {
        let width = if self.version == 2 { 12 } else { 8 };
        self.items.len() + width * self.kinds.len() + 12
    }

    /// Puts something wrong, in every second case.
    pub fn spoil(&mut self, random: &mut Random) {
        match random.below(20) {
            0 => self.day = *random.pick(BAD_DAYS),
            1 => self.kinds.push(4),
            2 => self.flags.push(0),
            3 => self.lengths.push(1),
            4 => self.items.push(0),
            5 => self.wrong_entry(random),
            6 => self.too_many(),
            7 => self.version = *random.pick(BAD_VERSIONS),
            8 => self.version = 3 - self.version,
            9 => self.wrong_letters(random),
            _ => {}
        }
    }

    /// 97 items.
    fn too_many(&mut self) {
        let more = 97 - self.kinds.len().min(97);
        self.kinds.resize(self.kinds.len() + more, 2);
        self.flags.resize(self.flags.len() + more, 0);
        self.lengths.resize(self.lengths.len() + more, 1);
        self.letters.resize(self.letters.len() + 2 * more, 0);
        self.items.resize(self.items.len() + more, 9);
    }

    /// One field out of its range.
    fn wrong_entry(&mut self, random: &mut Random) {
        if self.kinds.is_empty() {
            return;
        }
        let place = random.below(self.kinds.len());
        match random.below(4) {
            0 => self.kinds[place] = *random.pick(&[0, 5, 255]),
            1 => self.flags[place] = *random.pick(&[1, 2, 255]),
            2 => self.lengths[place] = *random.pick(&[0, 16_385, 65_536, u32::MAX]),
            _ => self.lengths[place] += 65_536,
        }
    }

    /// One letter too many or too few, or one that is not zero.
    fn wrong_letters(&mut self, random: &mut Random) {
        match random.below(3) {
            0 => self.letters.push(0),
            1 => drop(self.letters.pop()),
            _ if self.letters.is_empty() => {}
            _ => {
                let at = random.below(self.letters.len());
                self.letters[at] = random.between(1, 255) as u8;
            }
        }
    }
}
