//! The model: every call in plain Rust, written from the rules of 01 and 02 alone.
//!
//! Each call decodes the lent words into a `Table`, works on sets and lists, and writes the lent words at its end, so that a
//! refused call has changed nothing. The refusals stand in the order in which the call tests them.

pub mod breach;
pub mod building;
pub mod compaction;
pub mod evidence;
pub mod lists;
pub mod ranks;
pub mod reading;
pub mod sketch;
pub mod table;
pub mod weld;
