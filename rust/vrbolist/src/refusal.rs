//! Why a question was refused.

use std::fmt;

/// A refusal's number and the detail told beside it: an offset for 2 and 3, a rule for 4 and 5, else 0.
#[derive(Clone, Copy, Debug, PartialEq, Eq)]
pub struct Refusal {
    pub number: u64,
    pub detail: u64,
}

impl fmt::Display for Refusal {
    fn fmt(&self, to: &mut fmt::Formatter<'_>) -> fmt::Result {
        let detail = self.detail;
        match self.number {
            1 => write!(to, "refusal 1: an argument is out of its range"),
            2 => write!(to, "refusal 2: not DER, at the element that starts at byte {detail}"),
            3 => write!(to, "refusal 3: a limit is passed, at byte {detail}"),
            4 => write!(to, "refusal 4: rule {detail} of the profile is broken"),
            5 => write!(to, "refusal 5: rule {detail} of the trust image is broken"),
            6 => write!(to, "refusal 6: the image is of another day than the wanted one"),
            7 => write!(to, "refusal 7: there is no good chain"),
            8 => write!(to, "refusal 8: the INTEGER has more than 8 octets"),
            9 => write!(to, "refusal 9: the output is shorter than what would be written"),
            number => write!(to, "refusal {number}, detail {detail}"),
        }
    }
}

impl std::error::Error for Refusal {}
