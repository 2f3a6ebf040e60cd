//! Makes DER items, certificates, CRLs, trust images, verdict tables, tray
//! logs and questions, for tests and benchmarks. All of it follows from a seed.

#![forbid(unsafe_code)]

pub mod certificate;
pub mod certificate_breaks;
pub mod change;
pub mod columns;
pub mod crl;
pub mod crl_breaks;
pub mod der;
pub mod envelope;
pub mod extension;
pub mod image;
pub mod name;
pub mod proposal;
pub mod questions;
pub mod random;
pub mod table;
pub mod time;
pub mod tray;
pub mod tree;
pub mod world;

use random::Random;

/// A way to break one rule, applied to something good.
pub struct Break<T: 'static> {
    /// The rule that it breaks.
    pub rule: u64,
    /// What it does.
    pub what: &'static str,
    /// The roles that have this rule; empty where there are no roles.
    pub roles: &'static [u64],
    pub apply: fn(&mut T, &mut Random),
}
