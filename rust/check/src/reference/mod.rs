//! An implementation of the rule book from its text alone: literal, in its words and order, slow where that is clearer.
//! It is total: any head and any cells get an answer. "n.m" in a comment is section n, rule m of the rule book.

pub mod journal;
pub mod journal_rules;
pub mod map;
pub mod map_rules;
pub mod record;
pub mod recovery;
pub mod reply;

#[cfg(test)]
mod examples;

/// The limits of section 2.
pub const RUNNING: usize = 8;
pub const KEYS_WRITTEN: usize = 32;
pub const RECORDS: usize = 2048;
pub const BASE_ROWS: usize = 512;
pub const VERSIONS: usize = 4096;

/// One above the highest transaction number (section 2).
pub const NO_NUMBER: u32 = 4_294_967_295;

/// 3.1: the old value plus d modulo 4,294,967,296, absent counting as 0.
pub fn added(old: Option<u32>, d: u32) -> u32 {
    let sum = u64::from(old.unwrap_or(0)) + u64::from(d);
    (sum % 4_294_967_296) as u32
}
