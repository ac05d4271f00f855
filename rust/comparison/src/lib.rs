//! Further implementations of the papers' rules, and the sheets on which the
//! proved library is compared with them.

pub mod both;
pub mod cpu;
pub mod cuttings;
pub mod float;
mod natural;
pub mod plain;
pub mod sheets;
#[cfg(target_arch = "x86_64")]
pub mod stack;
pub mod unrounded;
