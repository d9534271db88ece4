//! A case as a script of plain lines: written, read back, and run again.

pub mod parse;
pub mod replay;
pub mod write;
