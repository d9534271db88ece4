//! The limits of the rule book's section 2, by name.

/// Which layout the heads have.
pub const LAYOUT: u32 = 2;
/// How many bytes a journal record takes.
pub const RECORD_BYTES: usize = 24;
/// How many records a journal has at the most.
pub const JOURNAL_RECORDS: usize = 2048;
/// How many bytes a journal has at the most.
pub const JOURNAL_BYTES: usize = JOURNAL_RECORDS * RECORD_BYTES;
/// How many rows a base has at the most.
pub const BASE_ROWS: usize = 512;
/// How many versions a map keeps at the most.
pub const VERSION_ROWS: usize = 4096;
/// How many transactions run at the most.
pub const RUNNING: usize = 8;
/// How many distinct keys a transaction writes at the most.
pub const KEYS: usize = 32;
/// The number that no transaction has: from here on none are left.
pub const NO_NUMBER: u32 = u32::MAX;
