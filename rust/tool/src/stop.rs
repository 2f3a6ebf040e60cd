//! A command that cannot answer: an exit status, and words for standard error.

pub const USAGE: u8 = 64;
/// A log with a faulty record, or letters that are not true: an answer, and no refusal.
pub const FAULTY: u8 = 65;
pub const NO_INPUT: u8 = 66;
/// The two searches for a chain gave two answers.
pub const DIFFER: u8 = 70;
pub const CANNOT_WRITE: u8 = 73;

pub struct Stop {
    pub status: u8,
    pub message: String,
}

impl Stop {
    pub fn usage(message: impl Into<String>) -> Stop {
        Stop { status: USAGE, message: message.into() }
    }

    pub fn no_input(message: impl Into<String>) -> Stop {
        Stop { status: NO_INPUT, message: message.into() }
    }

    pub fn differ(message: impl Into<String>) -> Stop {
        Stop { status: DIFFER, message: message.into() }
    }

    pub fn cannot_write(message: impl Into<String>) -> Stop {
        Stop { status: CANNOT_WRITE, message: message.into() }
    }
}
