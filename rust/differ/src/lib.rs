//! Asks two readers the same questions and compares number, detail, every
//! other field and every lent byte.

#![forbid(unsafe_code)]

mod answer;
mod compare;
mod one_by_one;
mod reader;
mod show;

pub use answer::Answer;
pub use compare::{compare, run, Difference, Limits};
pub use one_by_one::OneByOne;
pub use reader::{ByIndex, ByRounds, Lent, Library, Plain, Reader};
pub use show::{hex, kind, show};
