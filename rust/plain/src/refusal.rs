//! Refusal numbers and their details.

/// A refusal: its number and detail.
#[derive(Clone, Copy, Debug, PartialEq, Eq)]
pub(crate) struct Refusal {
    pub number: u64,
    pub detail: u64,
}

impl Refusal {
    /// 1: an argument is outside its stated range.
    pub const ARGUMENT: Refusal = Refusal::new(1, 0);
    /// 3 at 0: an item or a written image is too long.
    pub const TOO_LONG: Refusal = Refusal::new(3, 0);
    /// 6: the image's day is not the wanted day.
    pub const DAY: Refusal = Refusal::new(6, 0);
    /// 7: no good chain exists.
    pub const CHAIN: Refusal = Refusal::new(7, 0);
    /// 8: an INTEGER asked for as a number has over 8 octets.
    pub const NUMBER: Refusal = Refusal::new(8, 0);
    /// 9: the lent output is shorter than the result.
    pub const OUTPUT: Refusal = Refusal::new(9, 0);

    const fn new(number: u64, detail: u64) -> Refusal {
        Refusal { number, detail }
    }

    /// 2: a DER rule is broken by the element at this offset.
    pub const fn der(at: usize) -> Refusal {
        Refusal::new(2, at as u64)
    }

    /// No refusal: a SET is out of order, and the walk has to go anew.
    pub const UNSORTED: Refusal = Refusal::new(0, 0);

    /// 3: the walk passes a limit at the element at this offset.
    pub const fn limit(at: usize) -> Refusal {
        Refusal::new(3, at as u64)
    }

    /// 4: a profile rule is broken.
    pub const fn profile(rule: u64) -> Refusal {
        Refusal::new(4, rule)
    }

    /// 5: an image rule is broken.
    pub const fn image(rule: u64) -> Refusal {
        Refusal::new(5, rule)
    }
}
