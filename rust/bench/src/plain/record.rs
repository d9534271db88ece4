//! The 24 bytes of a journal record, read and written a number at a time.

use super::Effect;
use registers::limits::RECORD_BYTES;

pub type Record = [u8; RECORD_BYTES];

/// The kinds of section 4.
pub const BEGIN: u8 = 1;
pub const ASSIGN: u8 = 2;
pub const ADD: u8 = 3;
pub const COMMIT: u8 = 4;
pub const ABORT: u8 = 5;

/// Section 4: where the numbers of a record stand.
const TRANSACTION_AT: usize = 4;
const KEY_AT: usize = 8;
const VALUE_AT: usize = 12;
const TIME_AT: usize = 16;

/// The used records of a journal.
pub fn records(journal: &[u8], used: usize) -> &[Record] {
    &journal.as_chunks::<RECORD_BYTES>().0[..used]
}

/// The same, to move them about.
pub fn records_mut(journal: &mut [u8], used: usize) -> &mut [Record] {
    &mut journal.as_chunks_mut::<RECORD_BYTES>().0[..used]
}

/// How many records are tested before it is asked whether one of them was met: one jump for all of them.
const WIDTH: usize = 8;

/// Shows the records that a quick test is true of, in order. Few are meant to be.
pub fn met<'a>(records: &'a [Record], test: impl Fn(&Record) -> bool, mut each: impl FnMut(&'a Record)) {
    let (wide, rest) = records.as_chunks::<WIDTH>();
    for chunk in wide {
        if chunk.iter().fold(false, |met, r| met | test(r)) {
            chunk.iter().filter(|r| test(r)).for_each(&mut each);
        }
    }
    rest.iter().filter(|r| test(r)).for_each(each);
}

fn word(r: &Record, at: usize) -> u32 {
    u32::from_le_bytes([r[at], r[at + 1], r[at + 2], r[at + 3]])
}

pub fn kind(r: &Record) -> u8 {
    r[0]
}

/// The bytes 1 to 3, which a call writes as zero.
pub fn zeros(r: &Record) -> u32 {
    word(r, 0) >> u8::BITS
}

pub fn transaction(r: &Record) -> u32 {
    word(r, TRANSACTION_AT)
}

pub fn key(r: &Record) -> u32 {
    word(r, KEY_AT)
}

pub fn value(r: &Record) -> u32 {
    word(r, VALUE_AT)
}

pub fn time(r: &Record) -> u64 {
    u64::from(word(r, TIME_AT)) | u64::from(word(r, TIME_AT + size_of::<u32>())) << u32::BITS
}

pub fn set_time(r: &mut Record, time: u64) {
    r[TIME_AT..].copy_from_slice(&time.to_le_bytes());
}

pub fn is_update(r: &Record) -> bool {
    matches!(kind(r), ASSIGN | ADD)
}

/// The effect of an update record.
pub fn effect(r: &Record) -> Effect {
    if kind(r) == ASSIGN {
        Effect::Assign(value(r))
    } else {
        Effect::Add(value(r))
    }
}

/// A begin, commit or abort.
pub fn mark(kind: u8, transaction: u32, time: u64) -> Record {
    let mut r = [0; RECORD_BYTES];
    r[0] = kind;
    r[TRANSACTION_AT..KEY_AT].copy_from_slice(&transaction.to_le_bytes());
    set_time(&mut r, time);
    r
}

/// An update.
pub fn update(transaction: u32, key: u32, effect: Effect) -> Record {
    let (kind, value) = match effect {
        Effect::Assign(v) => (ASSIGN, v),
        Effect::Add(d) => (ADD, d),
    };
    let mut r = mark(kind, transaction, 0);
    r[KEY_AT..VALUE_AT].copy_from_slice(&key.to_le_bytes());
    r[VALUE_AT..TIME_AT].copy_from_slice(&value.to_le_bytes());
    r
}
