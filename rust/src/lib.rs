//! Bumbleturf for Rust: safe calls of the proved kernel for sketches of parts.
//!
//! A [`Table`] owns or borrows 8·N words of 16 bits, N from 1 to 512. Every call takes any input whatever: a damaged table, a short buffer
//! or a wrong number is answered with a [`Refusal`], and a refused call changes nothing, but for [`Table::read`] and [`Table::import`], which
//! refused with anything but 1 leave every word [`FREE`].
//!
//! ```
//! use bumbleturf::Table;
//! let mut part = Table::new(8)?;
//! let a = part.cone_over(&[])?; // a point
//! let b = part.cone_over(&[a])?; // a second one, and the edge between them
//! assert_eq!(part.count()?.holes[..2], [1, 0]);
//! part.merge(a, b)?; // the edge is now a loop
//! assert_eq!(part.count()?.holes[..2], [1, 1]);
//! # Ok::<(), bumbleturf::Refusal>(())
//! ```

mod breach;
mod raw;
mod refusal;
mod table;

/// The version of this crate, of the header and of the archive that it links: that of `BT_VERSION` in `bumbleturf.h`.
pub const VERSION: &str = env!("CARGO_PKG_VERSION");

pub use breach::Breach;
pub use refusal::Refusal;
pub use table::{evidence_words, mark_words, Count, Table, CAPACITY, DIMENSIONS, FILE_BYTES, FREE, RECORD_WORDS, TOP_DIMENSION};

#[cfg(test)]
mod tests;
