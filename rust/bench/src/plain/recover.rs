//! Recovery, section 5: one pass with the running transactions and the keys that they wrote, and a column of what has
//! been committed.

use super::record::{self, Record, ABORT, ADD, ASSIGN, BEGIN, COMMIT};
use super::{accepted, refused};
use crate::lent::JournalLent;
use registers::limits::{BASE_ROWS, JOURNAL_BYTES, KEYS, NO_NUMBER, RECORD_BYTES, RUNNING};
use registers::numbers::{BAD_RECORD, BAD_SHAPE};
use registers::{Answer, JournalHead};

/// A running transaction.
#[derive(Clone, Copy)]
struct Open {
    number: u32,
    snapshot: u64,
    keys: [u32; KEYS],
    /// The keys that were assigned too, not only added to.
    assigned: [bool; KEYS],
    count: usize,
}

impl Open {
    fn row(&self, key: u32) -> Option<usize> {
        self.keys[..self.count].iter().position(|&k| k == key)
    }

    /// A key that both wrote, unless both only added to it.
    fn meets(&self, other: &Committed) -> bool {
        self.row(other.key).is_some_and(|row| self.assigned[row] || other.assigned)
    }

    /// An update; false where it is a key too many.
    fn note(&mut self, key: u32, assigns: bool) -> bool {
        if let Some(row) = self.row(key) {
            self.assigned[row] |= assigns;
            return true;
        }
        if self.count == KEYS {
            return false;
        }
        (self.keys[self.count], self.assigned[self.count]) = (key, assigns);
        self.count += 1;
        true
    }
}

/// A key that a transaction committed.
struct Committed {
    key: u32,
    time: u64,
    assigned: bool,
}

/// What the records passed say.
struct Walk {
    low: u64,
    last: u64,
    /// One more than the highest number begun.
    above: u64,
    open: [Open; RUNNING],
    count: usize,
    /// Keys committed; their times rise.
    committed: Vec<Committed>,
    /// The transactions that ended by an abort, and at the end those that still run.
    dropped: Vec<u32>,
}

impl Walk {
    fn new(low: u64, records: usize) -> Self {
        let free = Open { number: 0, snapshot: 0, keys: [0; KEYS], assigned: [false; KEYS], count: 0 };
        let committed = Vec::with_capacity(records);
        Walk { low, last: low, above: 1, open: [free; RUNNING], count: 0, committed, dropped: Vec::new() }
    }

    fn find(&self, number: u32) -> Option<usize> {
        self.open[..self.count].iter().position(|o| o.number == number)
    }

    fn close(&mut self, i: usize) {
        self.count -= 1;
        self.open[i] = self.open[self.count];
    }

    fn begin(&mut self, number: u32, snapshot: u64) -> Option<()> {
        let fits = u64::from(number) >= self.above && number < NO_NUMBER && self.count < RUNNING;
        (fits && self.low <= snapshot && snapshot <= self.last).then_some(())?;
        let open = &mut self.open[self.count];
        (open.number, open.snapshot, open.count) = (number, snapshot, 0);
        self.count += 1;
        self.above = u64::from(number) + 1;
        Some(())
    }

    /// Whether somebody committed one of the keys later than the snapshot: only the newest commits are looked at.
    fn conflicts(&self, open: &Open) -> bool {
        let later = self.committed.iter().rev().take_while(|c| c.time > open.snapshot);
        later.into_iter().any(|c| open.meets(c))
    }

    fn commit(&mut self, number: u32, time: u64) -> Option<()> {
        let i = self.find(number)?;
        (time > self.last && !self.conflicts(&self.open[i])).then_some(())?;
        let open = &self.open[i];
        let written = open.keys[..open.count].iter().zip(open.assigned);
        self.committed.extend(written.map(|(&key, assigned)| Committed { key, time, assigned }));
        self.last = time;
        self.close(i);
        Some(())
    }

    fn abort(&mut self, number: u32) -> Option<()> {
        let i = self.find(number)?;
        self.dropped.push(number);
        self.close(i);
        Some(())
    }

    /// One record more, or none where no accepted call would write it.
    fn step(&mut self, r: &Record) -> Option<()> {
        let number = record::transaction(r);
        let blank = record::key(r) == 0 && record::value(r) == 0;
        (record::zeros(r) == 0).then_some(())?;
        match record::kind(r) {
            BEGIN if blank => self.begin(number, record::time(r)),
            COMMIT if blank => self.commit(number, record::time(r)),
            ABORT if blank && record::time(r) == 0 => self.abort(number),
            ASSIGN | ADD if record::key(r) != 0 && record::time(r) == 0 => {
                let i = self.find(number)?;
                self.open[i].note(record::key(r), record::kind(r) == ASSIGN).then_some(())
            }
            _ => None,
        }
    }
}

/// Section 6, number 1, for recover.
fn shaped(h: &JournalHead, lent: &JournalLent, survived: usize) -> bool {
    let counted = h.base_rows <= BASE_ROWS.min(lent.keys.len()) && lent.keys.len() == lent.values.len();
    let fits = survived <= JOURNAL_BYTES.min(lent.journal.len()) && h.floor != 0;
    counted && fits && {
        let keys = &lent.keys[..h.base_rows];
        keys.first() != Some(&0) && keys.is_sorted_by(|a, b| a < b)
    }
}

pub fn recover(h: &mut JournalHead, lent: &mut JournalLent, survived: usize) -> Answer {
    if !shaped(h, lent, survived) {
        return refused(BAD_SHAPE);
    }
    let records = record::records_mut(&mut lent.journal, survived / RECORD_BYTES);
    let mut walk = Walk::new(h.low, records.len());
    if let Some(place) = records.iter().position(|r| walk.step(r).is_none()) {
        return Answer { number: BAD_RECORD, present: 1, value: place as u64 };
    }
    walk.dropped.extend(walk.open[..walk.count].iter().map(|o| o.number));
    h.floor = walk.above.max(u64::from(h.floor)).min(u64::from(NO_NUMBER)) as u32;
    h.used = keep(records, walk.dropped);
    lent.journal[h.used * RECORD_BYTES..survived].fill(0);
    accepted()
}

/// The records of all transactions but those dropped move up; how many stay.
fn keep(records: &mut [Record], mut dropped: Vec<u32>) -> usize {
    if dropped.is_empty() {
        return records.len();
    }
    dropped.sort_unstable();
    let mut kept = 0;
    for i in 0..records.len() {
        if dropped.binary_search(&record::transaction(&records[i])).is_err() {
            records[kept] = records[i];
            kept += 1;
        }
    }
    kept
}
