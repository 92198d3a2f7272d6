//! Random runs that compare the library with the model: after every call the answer, every value pointer and every word of
//! every buffer.

pub mod broken;
pub mod calls;
pub mod damages;
pub mod files;
pub mod follow;
pub mod lists;
pub mod runs;
pub mod shrink;
pub mod tables;
pub mod tally;
