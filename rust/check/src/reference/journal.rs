//! Section 6 for the journal store: each call makes its tests in the order given there, then acts.

use super::journal_rules::Journal;
use super::record::{records_of, Record, ABORT, ADD, ASSIGN, BEGIN, COMMIT, SIZE};
use super::reply::{refuse, Reply};
use super::{BASE_ROWS, KEYS_WRITTEN, NO_NUMBER, RECORDS, RUNNING};
use registers::JournalHead;

/// What a call is lent: the base columns and the journal's bytes.
pub struct Lent<'a> {
    pub keys: &'a mut [u32],
    pub values: &'a mut [u32],
    pub journal: &'a mut [u8],
}

impl Lent<'_> {
    /// Section 2: room beyond the limit is not used, room for part of a record is no room.
    fn record_room(&self) -> usize {
        RECORDS.min(self.journal.len() / SIZE)
    }

    pub fn base_room(&self) -> usize {
        BASE_ROWS.min(self.keys.len())
    }
}

/// 6 no. 1 for the base: columns, rows and floor.
pub fn bad_base(head: &JournalHead, lent: &Lent) -> bool {
    lent.keys.len() != lent.values.len() || head.base_rows > lent.base_room() || head.floor == 0
}

/// 6 no. 1 for every call but recover.
fn bad_shape(head: &JournalHead, lent: &Lent) -> bool {
    bad_base(head, lent) || head.used > lent.record_room()
}

/// The journal of a head whose shape is good.
fn journal_of<'a>(head: &JournalHead, lent: &'a Lent) -> Journal<'a> {
    let rows = head.base_rows;
    let records = records_of(&lent.journal[..head.used * SIZE]);
    let (base_keys, base_values) = (&lent.keys[..rows], &lent.values[..rows]);
    Journal { low: head.low, floor: head.floor, base_keys, base_values, records }
}

fn free_records(head: &JournalHead, lent: &Lent) -> usize {
    lent.record_room() - head.used
}

/// Section 4: a new record goes into the unused end.
fn append(head: &mut JournalHead, lent: &mut Lent, record: Record) {
    let end = head.used * SIZE;
    lent.journal[end..end + SIZE].copy_from_slice(&record.to_bytes());
    head.used += 1;
}

pub fn begin(head: &mut JournalHead, lent: &mut Lent, t: u64) -> Reply {
    refuse(1, bad_shape(head, lent))?;
    let journal = journal_of(head, lent);
    refuse(4, t < journal.low)?;
    refuse(5, t > journal.last())?;
    refuse(6, journal.running().len() >= RUNNING)?;
    refuse(7, journal.next() == NO_NUMBER)?;
    refuse(12, free_records(head, lent) < journal.begin_needs())?;
    let number = journal.next();
    append(head, lent, Record::new(BEGIN, number, 0, 0, t));
    Ok(Some(u64::from(number)))
}

pub fn read(head: &JournalHead, lent: &Lent, n: u32, k: u32) -> Reply {
    refuse(1, bad_shape(head, lent))?;
    let journal = journal_of(head, lent);
    refuse(2, !journal.runs(n))?;
    refuse(3, k == 0)?;
    Ok(journal.read(n, k).map(u64::from))
}

pub fn lookup(head: &JournalHead, lent: &Lent, k: u32, t: u64) -> Reply {
    refuse(1, bad_shape(head, lent))?;
    let journal = journal_of(head, lent);
    refuse(3, k == 0)?;
    refuse(4, t < journal.low)?;
    refuse(5, t > journal.last())?;
    Ok(journal.value_at(k, t).map(u64::from))
}

fn update(head: &mut JournalHead, lent: &mut Lent, record: Record) -> Reply {
    refuse(1, bad_shape(head, lent))?;
    let journal = journal_of(head, lent);
    refuse(2, !journal.runs(record.transaction))?;
    refuse(3, record.key == 0)?;
    let written = journal.keys_written(record.transaction);
    refuse(8, !written.contains(&record.key) && written.len() >= KEYS_WRITTEN)?;
    refuse(12, free_records(head, lent) < journal.update_needs())?;
    append(head, lent, record);
    Ok(None)
}

pub fn assign(head: &mut JournalHead, lent: &mut Lent, n: u32, k: u32, v: u32) -> Reply {
    update(head, lent, Record::new(ASSIGN, n, k, v, 0))
}

pub fn add(head: &mut JournalHead, lent: &mut Lent, n: u32, k: u32, d: u32) -> Reply {
    update(head, lent, Record::new(ADD, n, k, d, 0))
}

pub fn abort(head: &mut JournalHead, lent: &mut Lent, n: u32) -> Reply {
    refuse(1, bad_shape(head, lent))?;
    refuse(2, !journal_of(head, lent).runs(n))?;
    refuse(12, free_records(head, lent) == 0)?;
    append(head, lent, Record::new(ABORT, n, 0, 0, 0));
    Ok(None)
}

pub fn commit(head: &mut JournalHead, lent: &mut Lent, n: u32, ct: u64) -> Reply {
    refuse(1, bad_shape(head, lent))?;
    let journal = journal_of(head, lent);
    refuse(2, !journal.runs(n))?;
    refuse(10, ct <= journal.last())?;
    refuse(11, journal.conflicts(n))?;
    refuse(12, free_records(head, lent) == 0)?;
    append(head, lent, Record::new(COMMIT, n, 0, 0, ct));
    Ok(None)
}

pub fn list(head: &JournalHead, lent: &Lent, t: u64, listed: &mut [u32], contents: &mut [u32]) -> Reply {
    refuse(1, bad_shape(head, lent) || listed.len() != contents.len())?;
    let journal = journal_of(head, lent);
    refuse(4, t < journal.low)?;
    refuse(5, t > journal.last())?;
    let rows = journal.list_at(t);
    refuse(12, rows.len() > listed.len())?;
    write_rows(&rows, listed, contents);
    Ok(Some(rows.len() as u64))
}

/// Section 6: rows of a lent list or base beyond the count keep their contents.
pub fn write_rows(rows: &[(u32, u32)], keys: &mut [u32], values: &mut [u32]) {
    for (row, &(key, value)) in rows.iter().enumerate() {
        keys[row] = key;
        values[row] = value;
    }
}

/// 3.9.
pub fn checkpoint(head: &mut JournalHead, lent: &mut Lent, t: u64) -> Reply {
    refuse(1, bad_shape(head, lent))?;
    let journal = journal_of(head, lent);
    refuse(4, t < journal.low)?;
    refuse(5, t > journal.last())?;
    let held = journal.running().into_iter().any(|n| journal.snapshot(n).is_some_and(|snapshot| t > snapshot));
    refuse(9, held)?;
    let rows = journal.list_at(t);
    refuse(12, rows.len() > lent.base_room())?;
    let kept = journal.kept_at(t);
    let floor = journal.next();
    let end = head.used * SIZE;
    write_rows(&rows, lent.keys, lent.values);
    write_records(&kept, &mut lent.journal[..end]);
    *head = JournalHead { low: t, floor, base_rows: rows.len(), used: kept.len() };
    Ok(None)
}

/// The records from the start on; every byte behind them is zero.
pub fn write_records(kept: &[Record], bytes: &mut [u8]) {
    bytes.fill(0);
    for (place, record) in kept.iter().enumerate() {
        bytes[place * SIZE..][..SIZE].copy_from_slice(&record.to_bytes());
    }
}
