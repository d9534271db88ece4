//! The journal store's calls but recover.

use super::record::{self, Record, ABORT, ASSIGN, BEGIN, COMMIT};
use super::running::{self, tally, Trace};
use super::{accepted, found, given, list, refused, value, Effect};
use crate::lent::JournalLent;
use registers::limits::{BASE_ROWS, JOURNAL_RECORDS, KEYS, NO_NUMBER, RECORD_BYTES, RUNNING};
use registers::numbers::{
    BAD_KEY, BAD_SHAPE, CONFLICT, FUTURE, HELD, KEYS_FULL, NOT_LATER, NO_NUMBERS, NO_ROOM, TOO_MANY, TOO_OLD,
    UNKNOWN_TRANSACTION,
};
use registers::{Answer, JournalHead};

pub use super::recover::recover;

/// Section 6, number 1.
fn shaped(h: &JournalHead, lent: &JournalLent) -> bool {
    h.base_rows <= BASE_ROWS.min(lent.keys.len())
        && lent.keys.len() == lent.values.len()
        && h.used <= room(lent)
        && h.floor != 0
}

/// How many records there is room for.
fn room(lent: &JournalLent) -> usize {
    (lent.journal.len() / RECORD_BYTES).min(JOURNAL_RECORDS)
}

/// The greatest of low and all commit times, rule 3.3. Mostly it is the newest commit's, and it is only to be seen that
/// none is later, which needs no jump.
fn last(h: &JournalHead, records: &[Record]) -> u64 {
    let is_commit = |r: &&Record| record::kind(r) == COMMIT;
    let newest = records.iter().rev().find(is_commit).map_or(h.low, record::time).max(h.low);
    let is_later = |r: &Record| (record::kind(r) == COMMIT) & (record::time(r) > newest);
    if records.iter().fold(false, |later, r| later | is_later(r)) {
        return records.iter().filter(is_commit).map(record::time).fold(newest, u64::max);
    }
    newest
}

/// Whether a time lies above last: the newest commit tells most times.
fn is_future(h: &JournalHead, records: &[Record], t: u64) -> bool {
    h.low < t && !records.iter().rev().any(|r| record::kind(r) == COMMIT && t <= record::time(r))
}

/// The refusal of a time below low or above last.
fn untimely(h: &JournalHead, records: &[Record], t: u64) -> Option<Answer> {
    if t < h.low {
        return Some(refused(TOO_OLD));
    }
    is_future(h, records, t).then(|| refused(FUTURE))
}

/// One record more, in the unused end.
fn append(h: &mut JournalHead, lent: &mut JournalLent, r: Record) {
    record::records_mut(&mut lent.journal, h.used + 1)[h.used] = r;
    h.used += 1;
}

/// The value of a key's base row.
fn base_value(h: &JournalHead, lent: &JournalLent, k: u32) -> Option<u32> {
    let row = lent.keys[..h.base_rows].iter().position(|&key| key == k)?;
    Some(lent.values[row])
}

pub fn begin(h: &mut JournalHead, lent: &mut JournalLent, t: u64) -> Answer {
    if !shaped(h, lent) {
        return refused(BAD_SHAPE);
    }
    let records = record::records(&lent.journal, h.used);
    if let Some(refusal) = untimely(h, records, t) {
        return refusal;
    }
    let tally = tally(records, |_| {});
    let next = tally.next(h.floor);
    if tally.count >= RUNNING {
        return refused(TOO_MANY);
    }
    if next == NO_NUMBER {
        return refused(NO_NUMBERS);
    }
    if room(lent) < h.used + 2 + tally.count {
        return refused(NO_ROOM);
    }
    append(h, lent, record::mark(BEGIN, next, t));
    given(u64::from(next))
}

/// The keys that a transaction wrote, as far as the limit asks: 32 of them, and whether one key is among them.
struct Written {
    keys: [u32; KEYS],
    count: usize,
    has_key: bool,
}

impl Written {
    fn note(&mut self, key: u32, asked: u32) {
        self.has_key |= key == asked;
        if self.count < KEYS && !self.keys[..self.count].contains(&key) {
            self.keys[self.count] = key;
            self.count += 1;
        }
    }
}

pub fn update(h: &mut JournalHead, lent: &mut JournalLent, n: u32, k: u32, effect: Effect) -> Answer {
    if !shaped(h, lent) {
        return refused(BAD_SHAPE);
    }
    let mut trace = Trace::of(n);
    let mut written = Written { keys: [0; KEYS], count: 0, has_key: false };
    let tally = tally(record::records(&lent.journal, h.used), |r| {
        if record::transaction(r) == n {
            trace.step(r);
            if record::is_update(r) {
                written.note(record::key(r), k);
            }
        }
    });
    if !trace.runs() {
        return refused(UNKNOWN_TRANSACTION);
    }
    if k == 0 {
        return refused(BAD_KEY);
    }
    if written.count == KEYS && !written.has_key {
        return refused(KEYS_FULL);
    }
    if room(lent) < h.used + 1 + tally.count {
        return refused(NO_ROOM);
    }
    append(h, lent, record::update(n, k, effect));
    accepted()
}

/// What the records say of one transaction.
fn trace(records: &[Record], n: u32) -> Trace {
    let mut trace = Trace::of(n);
    record::met(records, |r| record::transaction(r) == n, |r| trace.step(r));
    trace
}

pub fn abort(h: &mut JournalHead, lent: &mut JournalLent, n: u32) -> Answer {
    if !shaped(h, lent) {
        return refused(BAD_SHAPE);
    }
    if !trace(record::records(&lent.journal, h.used), n).runs() {
        return refused(UNKNOWN_TRANSACTION);
    }
    if room(lent) < h.used + 1 {
        return refused(NO_ROOM);
    }
    append(h, lent, record::mark(ABORT, n, 0));
    accepted()
}

/// The numbers that committed later than a time, sorted.
fn late_numbers(records: &[Record], s: u64) -> Vec<u32> {
    let late = records.iter().filter(|r| record::kind(r) == COMMIT && record::time(r) > s);
    let mut numbers: Vec<u32> = late.map(record::transaction).collect();
    numbers.sort_unstable();
    numbers
}

/// Rule 3.6, asked only where somebody committed later than the snapshot. Who else wrote one of the keys is found
/// first: often it is nobody. An add meets only the keys that this one assigned.
fn conflicts(records: &[Record], n: u32, keys: &[u32], assigned: &[u32], snapshot: u64) -> bool {
    // One bit for each key, by its low digits: most keys of others are told apart by it.
    let bit = |key: u32| 1u64 << (key % u64::BITS);
    let bits = keys.iter().fold(0, |bits, &key| bits | bit(key));
    let met = |r: &Record| if record::kind(r) == ASSIGN { keys } else { assigned };
    let is_ours = |r: &Record| bits & bit(record::key(r)) != 0 && met(r).contains(&record::key(r));
    let others = records.iter().filter(|r| record::is_update(r) && is_ours(r) && record::transaction(r) != n);
    let mut numbers: Vec<u32> = others.map(record::transaction).collect();
    numbers.sort_unstable();
    let is_late = |r: &&Record| record::kind(r) == COMMIT && record::time(r) > snapshot;
    !numbers.is_empty()
        && records.iter().filter(is_late).any(|r| numbers.binary_search(&record::transaction(r)).is_ok())
}

pub fn commit(h: &mut JournalHead, lent: &mut JournalLent, n: u32, t: u64) -> Answer {
    if !shaped(h, lent) {
        return refused(BAD_SHAPE);
    }
    let records = record::records(&lent.journal, h.used);
    let (mut trace, mut keys, mut assigned) = (Trace::of(n), Vec::new(), Vec::new());
    record::met(
        records,
        |r| record::transaction(r) == n,
        |r| {
            trace.step(r);
            if record::is_update(r) {
                keys.push(record::key(r));
            }
            if record::kind(r) == ASSIGN {
                assigned.push(record::key(r));
            }
        },
    );
    if !trace.runs() {
        return refused(UNKNOWN_TRANSACTION);
    }
    let last = last(h, records);
    if t <= last {
        return refused(NOT_LATER);
    }
    if trace.snapshot < last && conflicts(records, n, &keys, &assigned, trace.snapshot) {
        return refused(CONFLICT);
    }
    if room(lent) < h.used + 1 {
        return refused(NO_ROOM);
    }
    append(h, lent, record::mark(COMMIT, n, t));
    accepted()
}

pub fn read(h: &JournalHead, lent: &JournalLent, n: u32, k: u32) -> Answer {
    if !shaped(h, lent) {
        return refused(BAD_SHAPE);
    }
    let records = record::records(&lent.journal, h.used);
    let trace = trace(records, n);
    if !trace.runs() {
        return refused(UNKNOWN_TRANSACTION);
    }
    if k == 0 {
        return refused(BAD_KEY);
    }
    found(value::read(records, base_value(h, lent, k), k, n, trace.snapshot))
}

pub fn lookup(h: &JournalHead, lent: &JournalLent, k: u32, t: u64) -> Answer {
    if !shaped(h, lent) {
        return refused(BAD_SHAPE);
    }
    let records = record::records(&lent.journal, h.used);
    if k == 0 {
        return refused(BAD_KEY);
    }
    untimely(h, records, t).unwrap_or_else(|| found(value::value(records, base_value(h, lent, k), k, t)))
}

/// The list at a time, over the base.
fn listed(h: &JournalHead, lent: &JournalLent, t: u64) -> Vec<(u32, u32)> {
    let records = record::records(&lent.journal, h.used);
    list::list(&lent.keys[..h.base_rows], &lent.values[..h.base_rows], records, t)
}

/// Rows into the first places of two columns.
fn fill(rows: &[(u32, u32)], keys: &mut [u32], values: &mut [u32]) {
    for ((row, key), value) in rows.iter().zip(keys).zip(values) {
        (*key, *value) = *row;
    }
}

pub fn list(h: &JournalHead, lent: &JournalLent, t: u64, keys: &mut [u32], values: &mut [u32]) -> Answer {
    if keys.len() != values.len() || !shaped(h, lent) {
        return refused(BAD_SHAPE);
    }
    if let Some(refusal) = untimely(h, record::records(&lent.journal, h.used), t) {
        return refusal;
    }
    let rows = listed(h, lent, t);
    if keys.len() < rows.len() {
        return refused(NO_ROOM);
    }
    fill(&rows, keys, values);
    given(rows.len() as u64)
}

pub fn checkpoint(h: &mut JournalHead, lent: &mut JournalLent, t: u64) -> Answer {
    if !shaped(h, lent) {
        return refused(BAD_SHAPE);
    }
    let records = record::records(&lent.journal, h.used);
    if let Some(refusal) = untimely(h, records, t) {
        return refusal;
    }
    let tally = tally(records, |_| {});
    if tally.lowest.is_some_and(|snapshot| snapshot < t) {
        return refused(HELD);
    }
    let rows = listed(h, lent, t);
    if lent.keys.len().min(BASE_ROWS) < rows.len() {
        return refused(NO_ROOM);
    }
    fill(&rows, &mut lent.keys, &mut lent.values);
    let used = keep(record::records_mut(&mut lent.journal, h.used), t);
    *h = JournalHead { low: t, floor: tally.next(h.floor), base_rows: rows.len(), used };
    accepted()
}

/// Rule 3.9: the records that stay move up, their begins raised, and zeros behind them; how many stay.
fn keep(records: &mut [Record], t: u64) -> usize {
    let mut stay = late_numbers(records, t);
    stay.extend(running::running_numbers(records));
    stay.sort_unstable();
    let is_kept =
        |r: &Record| (BEGIN..=ABORT).contains(&record::kind(r)) && stay.binary_search(&record::transaction(r)).is_ok();
    let mut kept = 0;
    if !stay.is_empty() {
        for i in 0..records.len() {
            let mut r = records[i];
            if is_kept(&r) {
                if record::kind(&r) == BEGIN && record::time(&r) < t {
                    record::set_time(&mut r, t);
                }
                records[kept] = r;
                kept += 1;
            }
        }
    }
    records[kept..].fill([0; RECORD_BYTES]);
    kept
}
