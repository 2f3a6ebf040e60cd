//! A plain reader of DER items, passport-signing certificates, CRLs, trust
//! images and chains: one function for each question.
//!
//! Every function is total. An answer begins with `number` (0: passed, else
//! the refusal's number) and `detail`; in a refusal every other field is 0,
//! every place 255, and lent buffers keep their bytes.

#![forbid(unsafe_code)]

mod anchors;
mod calendar;
mod certificate;
mod chain;
mod crl;
mod der;
mod extensions;
mod image;
mod integer;
mod letters;
mod name;
mod reader;
mod refusal;
mod room;
mod signers;
mod time;
mod tray;
mod writer;

pub use anchors::{anchors, anchors_by_index, Anchors};
pub use calendar::{day_difference, Days};
pub use certificate::{certificate, Certificate};
pub use chain::{chain, proposal, Chain, Told};
pub use crl::{crl, crl_age, Crl};
pub use der::{walk, Walk};
pub use image::{entry, image, image_for_day, Entry, Image};
pub use integer::{integer, Integer};
pub use letters::{letters, move_to_1, move_to_2, Letters};
pub use room::{make_room, Made};
pub use signers::{all_signers, Signers};
pub use tray::{replay, Replayed};
pub use writer::{write, Written};
