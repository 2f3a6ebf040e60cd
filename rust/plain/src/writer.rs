//! Writing a trust image.

use crate::calendar::day_real;
use crate::der::ITEM_LIMIT;
use crate::image::{kind_and_flags_good, width, IMAGE_LIMIT, PLACES, TRAILER};
use crate::refusal::Refusal;

/// The answer of what writes an image.
#[derive(Clone, Copy, Debug, Default, PartialEq, Eq)]
pub struct Written {
    pub number: u64,
    pub detail: u64,
    /// The image's length.
    pub length: u64,
}

impl Written {
    pub(crate) fn of(written: Result<usize, Refusal>) -> Written {
        match written {
            Ok(length) => Written { number: 0, detail: 0, length: length as u64 },
            Err(Refusal { number, detail }) => Written { number, detail, length: 0 },
        }
    }
}

/// Writes an image of packed items. Refusals in order: 1, 3, 9.
#[allow(clippy::too_many_arguments)]
pub fn write(
    items: &[u8],
    kinds: &[u8],
    flags: &[u8],
    lengths: &[u32],
    letters: &[u8],
    version: u64,
    day: u64,
    out: &mut [u8],
) -> Written {
    let columns = Columns { items, kinds, flags, lengths, letters };
    if !day_real(day) || !matches!(version, 1 | 2) || !columns.good(version as u16) {
        return Written::of(Err(Refusal::ARGUMENT));
    }
    Written::of(columns.write(version as u16, day, out))
}

/// The items and what the index says of them.
pub(crate) struct Columns<'a> {
    pub items: &'a [u8],
    pub kinds: &'a [u8],
    pub flags: &'a [u8],
    pub lengths: &'a [u32],
    /// Two for each item.
    pub letters: &'a [u8],
}

impl Columns<'_> {
    /// Whether every column is as long as it has to be, and every field in its range.
    fn good(&self, version: u16) -> bool {
        let entries = self.kinds.len();
        let equally_many = self.flags.len() == entries && self.lengths.len() == entries;
        if entries > PLACES || !equally_many || self.letters.len() != 2 * entries {
            return false;
        }
        let mut sum = 0;
        for ((&kind, &flags), &length) in self.kinds.iter().zip(self.flags).zip(self.lengths) {
            if !kind_and_flags_good(kind, flags) || length < 1 || length as usize > ITEM_LIMIT {
                return false;
            }
            sum += length as usize;
        }
        // One OR over all letters: zero exactly when each is.
        sum == self.items.len() && (version == 2 || self.letters.iter().fold(0, |all, letter| all | letter) == 0)
    }

    /// Writes good columns: the image's length, or 3, or 9.
    pub fn write(&self, version: u16, day: u64, out: &mut [u8]) -> Result<usize, Refusal> {
        let length = self.items.len() + width(version) * self.kinds.len() + TRAILER;
        if length > IMAGE_LIMIT {
            return Err(Refusal::TOO_LONG);
        }
        let out = out.get_mut(..length).ok_or(Refusal::OUTPUT)?;
        self.fill(version, day, out);
        Ok(length)
    }

    /// Fills `out`, which is as long as the image.
    fn fill(&self, version: u16, day: u64, out: &mut [u8]) {
        let (packed, rest) = out.split_at_mut(self.items.len());
        packed.copy_from_slice(self.items);
        let (index, trailer) = rest.split_at_mut(width(version) * self.kinds.len());
        match version {
            2 => self.fill_index::<12>(index),
            _ => self.fill_index::<8>(index),
        }
        trailer[0..4].copy_from_slice(&(self.items.len() as u32).to_be_bytes());
        trailer[4..6].copy_from_slice(&(self.kinds.len() as u16).to_be_bytes());
        trailer[6..8].copy_from_slice(&version.to_be_bytes());
        trailer[8..12].copy_from_slice(&(day as u32).to_be_bytes());
    }

    /// Fills the index, whose entries have this many octets.
    #[inline(always)]
    fn fill_index<const WIDTH: usize>(&self, index: &mut [u8]) {
        let columns = self.kinds.iter().zip(self.flags).zip(self.lengths).zip(self.letters.chunks_exact(2));
        let mut offset = 0u32;
        for (line, (((&kind, &flags), &length), letters)) in index.chunks_exact_mut(WIDTH).zip(columns) {
            line[0] = kind;
            line[1] = flags;
            line[2..4].copy_from_slice(&(length as u16).to_be_bytes());
            line[4..8].copy_from_slice(&offset.to_be_bytes());
            if WIDTH == 12 {
                line[8..10].copy_from_slice(letters);
                line[10..12].fill(0);
            }
            offset += length;
        }
    }
}
