//! Safe Rust over Smugolec's two static libraries: the bench and the analyser (`libtdd_bench.a`) and the code rules (`libtdd_codes.a`).
//!
//! ```
//! use smugolec::{Bench, CellParameter};
//!
//! let mut bench = Bench::fresh();
//! bench.set_cell(CellParameter(8), 1)?;
//! bench.open(4, 1, 3)?;
//! bench.start()?;
//! let (mut re, mut im) = ([0; 16], [0; 16]);
//! assert_eq!(bench.draw(&mut re, &mut im)?, 16);
//! # Ok::<(), smugolec::Refusal>(())
//! ```
//!
//! A refused call leaves the bench and every buffer as they were, and says why: a [`Refusal`].

pub mod analyser;
mod bench;
pub mod codes;
pub mod ffi;
mod refusal;

pub use bench::{Bench, Channel};
pub use refusal::{PlanRefusal, Refusal};

/// A cell parameter, 0 to 127. A [`CodeGroup`] is no cell parameter, and the compiler refuses one where the other is due.
#[derive(Clone, Copy, Debug, PartialEq, Eq)]
pub struct CellParameter(pub u32);

/// A code group, 0 to 31.
#[derive(Clone, Copy, Debug, PartialEq, Eq)]
pub struct CodeGroup(pub u32);

/// A whole-number complex value.
pub use ffi::Complex;
