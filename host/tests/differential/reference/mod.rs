//! A plain reference of the timeslot bench and its analyser.
//!
//! It is document 01 section by section, to be held beside it: each function stands under the
//! sentence it is, sums run chip by chip and channel by channel, and the number in an `Err` is the
//! document's refusal number. Conditions are tested in the order of each call's list.

pub mod analyser;
mod annex_a;
pub mod bench;
pub mod codes;
pub mod complex;
mod slot;
pub mod sync_codes;
#[cfg(test)]
mod tests;

pub use analyser::{Candidate, Peak, find, harden, read, read_sync};
pub use bench::{Bench, Channel};
pub use codes::{code_group, element, related, scrambling_chip};
pub use complex::Complex;
pub use sync_codes::{Modulated, allocation, burst_start, primary_chip, secondary_chip};
