//! What a host lends to the calls.

use registers::limits::{BASE_ROWS, JOURNAL_BYTES, JOURNAL_RECORDS, VERSION_ROWS};

/// How many rows a list has at the most: a base, and a key in each record.
pub const LIST_ROWS: usize = BASE_ROWS + JOURNAL_RECORDS;

/// What is lent to the journal store.
#[derive(Clone, PartialEq, Eq, Debug)]
pub struct JournalLent {
    pub keys: Vec<u32>,
    pub values: Vec<u32>,
    pub journal: Vec<u8>,
}

impl JournalLent {
    /// All the room that the journal store uses.
    pub fn whole() -> Self {
        JournalLent { keys: vec![0; BASE_ROWS], values: vec![0; BASE_ROWS], journal: vec![0; JOURNAL_BYTES] }
    }
}

/// What is lent to the map store.
#[derive(Clone, PartialEq, Eq, Debug)]
pub struct MapLent {
    pub keys: Vec<u32>,
    pub times: Vec<u64>,
    pub values: Vec<u32>,
    pub marks: Vec<u8>,
}

impl MapLent {
    /// All the room that the map store uses.
    pub fn whole() -> Self {
        MapLent::of(VERSION_ROWS)
    }

    /// Columns with so many rows.
    pub fn of(rows: usize) -> Self {
        MapLent { keys: vec![0; rows], times: vec![0; rows], values: vec![0; rows], marks: vec![0; rows] }
    }
}
