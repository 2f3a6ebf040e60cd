//! An INTEGER asked for as a signed number.

use crate::der::{judge, split, INTEGER};
use crate::refusal::Refusal;

/// The answer to the INTEGER question.
#[derive(Clone, Copy, Debug, Default, PartialEq, Eq)]
pub struct Integer {
    pub number: u64,
    pub detail: u64,
    /// The two's complement value.
    pub value: i64,
}

/// Reads an item that is one INTEGER of 1 to 8 octets.
pub fn integer(item: &[u8]) -> Integer {
    match read(item) {
        Ok(value) => Integer { value, ..Integer::default() },
        Err(Refusal { number, detail }) => Integer { number, detail, value: 0 },
    }
}

/// The walk's 2 and 3 first, then 1 for another element, then 8.
fn read(item: &[u8]) -> Result<i64, Refusal> {
    judge(item)?;
    let outermost = split(item).ok_or(Refusal::der(0))?;
    if outermost.id != INTEGER {
        return Err(Refusal::ARGUMENT);
    }
    let contents = outermost.contents;
    if contents.len() > 8 {
        return Err(Refusal::NUMBER);
    }
    let negative = contents[0] >= 0x80;
    let sign = if negative { -1 } else { 0 };
    Ok(contents.iter().fold(sign, |value, &octet| value << 8 | octet as i64))
}
