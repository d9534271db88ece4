//! Journals with any bytes: real ones with changes, records in any order, and counts and bases of every shape.

use super::small::{count, short_mostly, small_number, small_time};
use crate::random::Random;
use crate::reference::record::{Record, ADD, ASSIGN, SIZE};
use crate::stores::cells::JournalCells;
use registers::JournalHead;

/// One record with fields from small ranges, its unused ones mostly zero.
fn any_record(random: &mut Random) -> Record {
    let kind = if random.once_in(15) { random.bits() as u8 } else { 1 + random.below(5) as u8 };
    let mut record = Record::new(kind, small_number(random), 0, 0, 0);
    if matches!(kind, 1 | 4) || random.once_in(20) {
        record.time = small_time(random);
    }
    if matches!(kind, 2 | 3) || random.once_in(20) {
        record.key = small_number(random);
        record.value = if random.once_in(3) { random.bits() as u32 } else { random.below(4) as u32 };
    }
    if random.once_in(40) {
        record.gap[random.size(3)] = 1;
    }
    record
}

fn any_records(random: &mut Random, length: usize) -> Vec<Record> {
    (0..length).map(|_| any_record(random)).collect()
}

/// Records as calls would write them, but for the limits, conflicts and rooms that calls test: numbers and times rise.
fn plausible_records(random: &mut Random, length: usize, low: u64) -> Vec<Record> {
    let (mut last, mut next) = (low, 1);
    let mut running: Vec<u32> = Vec::new();
    let keys = random.pick(&[2, 6, 36, 40]);
    // Among few assigns one of them is what decides a conflict.
    let assigns = random.pick(&[2, 5]);
    let mut records = Vec::new();
    let weights = random.pick(&[[2, 5, 2, 1], [5, 3, 1, 1], [1, 40, 1, 0]]);
    for _ in 0..length {
        let choice = if running.is_empty() { 0 } else { random.weighted(&weights) };
        let place = random.size(running.len().max(1));
        records.push(match choice {
            0 => {
                running.push(next);
                next += 1 + u32::from(random.once_in(6));
                Record::new(1, running[running.len() - 1], 0, 0, random.between(last.saturating_sub(2).max(low), last))
            }
            1 => {
                let (key, kind) = (1 + random.below(keys) as u32, if random.once_in(assigns) { ASSIGN } else { ADD });
                Record::new(kind, running[place], key, random.below(5) as u32, 0)
            }
            2 => {
                last = last.saturating_add(1 + random.below(2));
                Record::new(4, running.remove(place), 0, 0, last)
            }
            _ => Record::new(5, running.remove(place), 0, 0, 0),
        });
    }
    records
}

/// Records at the limits of a transaction and of what runs: about 8 begins, then about 32 keys of one of them.
fn crowded_records(random: &mut Random, low: u64) -> Vec<Record> {
    let begins = 6 + random.below(5) as u32;
    let mut records: Vec<Record> = (1..=begins).map(|n| Record::new(1, n, 0, 0, low)).collect();
    if random.once_in(2) {
        records.truncate(1 + random.size(8));
    }
    let writer = 1 + random.size(records.len()) as u32;
    let first = 1 + random.below(9) as u32;
    let mut keys: Vec<u32> = (first..first + 30 + random.below(5) as u32).collect();
    let doubled = random.pick(&keys);
    keys.insert(random.size(keys.len()), doubled);
    let update = |random: &mut Random, key: u32| Record::new(2 + random.below(2) as u8, writer, key, 1, 0);
    records.extend(keys.into_iter().map(|key| update(random, key)));
    let end = if random.once_in(2) { Record::new(4, writer, 0, 0, low.saturating_add(1)) } else { any_record(random) };
    records.push(end);
    records
}

/// One change of one field by a little.
fn nudge(random: &mut Random, record: &mut Record) {
    let by = if random.once_in(2) { 1 } else { u32::MAX };
    match random.below(6) {
        0 => record.kind = record.kind.wrapping_add(by as u8),
        1 => record.transaction = record.transaction.wrapping_add(by),
        2 => record.key = if random.once_in(2) { 0 } else { record.key.wrapping_add(by) },
        3 => record.value = record.value.wrapping_add(by),
        4 => record.time = record.time.wrapping_add(if by == 1 { 1 } else { u64::MAX }),
        _ => record.gap[random.size(3)] ^= 1 << random.below(8),
    }
}

/// A few changes: bits flipped, fields nudged, records moved, doubled and lost.
fn alter(random: &mut Random, bytes: &mut [u8], used: usize) {
    let records = used.min(bytes.len() / SIZE);
    if records == 0 {
        return;
    }
    for _ in 0..1 + random.size(3) {
        let (one, other) = (random.size(records) * SIZE, random.size(records) * SIZE);
        match random.below(6) {
            0 | 1 => bytes[one + random.size(SIZE)] ^= 1 << random.below(8),
            2 => {
                let mut record = Record::from_bytes(&bytes[one..one + SIZE]);
                nudge(random, &mut record);
                bytes[one..one + SIZE].copy_from_slice(&record.to_bytes());
            }
            3 => bytes.copy_within(one..one + SIZE, other),
            4 => bytes[one.min(other)..one.max(other)].rotate_left(SIZE.min(one.abs_diff(other))),
            _ => bytes[one..].rotate_left(SIZE),
        }
    }
}

/// Base rows: mostly rising from 1, else in any order, repeated, or with key 0.
fn any_base(random: &mut Random, rows: usize) -> (Vec<u32>, Vec<u32>) {
    let mut keys: Vec<u32> = (0..rows).map(|_| small_number(random)).collect();
    if !random.once_in(3) {
        let from = u32::from(!random.once_in(12));
        keys = (0..rows as u32).map(|row| from + row * 2).collect();
    }
    let values = (0..rows).map(|_| random.below(6) as u32).collect();
    (keys, values)
}

fn any_head(random: &mut Random, rows: usize, records: usize) -> JournalHead {
    let floor = match random.below(30) {
        0 => 0,
        1 => u32::MAX,
        2 => u32::MAX - 1,
        _ => 1 + random.below(6) as u32,
    };
    let low = if random.once_in(3) { small_time(random) } else { random.below(3) };
    JournalHead { low, floor, base_rows: count(random, rows, 512), used: count(random, records, 2048) }
}

/// Rows and records at the limits of section 2 and beyond; the counts of the head say how many are used.
fn at_limits(random: &mut Random) -> JournalCells {
    let records = 2046 + random.size(5);
    let rows = 510 + random.size(5);
    let low = random.below(3);
    let content = match random.once_in(2) {
        true => plausible_records(random, records, low),
        false => any_records(random, records),
    };
    let mut cells = with_records(random, &content, rows);
    let near = |random: &mut Random, limit: usize| limit - 1 + random.size(3);
    cells.head = JournalHead { low, floor: 1, base_rows: near(random, 512), used: near(random, 2048) };
    cells
}

fn with_records(random: &mut Random, records: &[Record], rows: usize) -> JournalCells {
    let (keys, mut values) = any_base(random, rows);
    if random.once_in(60) {
        values.push(0);
    }
    let mut bytes: Vec<u8> = records.iter().flat_map(|record| record.to_bytes()).collect();
    bytes.extend((0..random.size(60)).map(|_| 9u8));
    let list = random.size(12);
    let (listed, contents) = (vec![77; list + usize::from(random.once_in(60))], vec![78; list]);
    JournalCells { head: any_head(random, rows, records.len()), keys, values, bytes, listed, contents }
}

fn altered_real(random: &mut Random, pool: &[JournalCells]) -> JournalCells {
    let mut cells = pool[random.size(pool.len())].clone();
    let used = cells.head.used;
    alter(random, &mut cells.bytes, used);
    match random.below(12) {
        0 => cells.head = any_head(random, cells.keys.len(), cells.bytes.len() / SIZE),
        1 => cells.head.low = small_time(random),
        2 => cells.keys.iter_mut().for_each(|key| *key = small_number(random)),
        3 => cells.head.base_rows = count(random, cells.keys.len(), 512),
        4 => cells.head.used = count(random, cells.bytes.len() / SIZE, 2048),
        _ => {}
    }
    cells
}

pub fn damaged_journal(random: &mut Random, pool: &[JournalCells]) -> JournalCells {
    if random.once_in(1200) {
        return at_limits(random);
    }
    let rows = random.size(6);
    let length = short_mostly(random);
    match random.below(10) {
        0..=3 if !pool.is_empty() => altered_real(random, pool),
        4..=6 => {
            let records = any_records(random, length);
            with_records(random, &records, rows)
        }
        7 | 8 => plausible_journal(random, length, rows),
        _ => {
            let mut cells = with_records(random, &[], rows);
            cells.bytes = (0..length * SIZE + random.size(24)).map(|_| random.bits() as u8).collect();
            cells.head.used = count(random, length, 2048);
            cells
        }
    }
}

fn plausible_journal(random: &mut Random, length: usize, rows: usize) -> JournalCells {
    let low = random.below(3);
    let mut records = match random.once_in(12) {
        true => crowded_records(random, low),
        false => plausible_records(random, length, low),
    };
    if !records.is_empty() && random.once_in(3) {
        let place = random.size(records.len());
        nudge(random, &mut records[place]);
    }
    let mut cells = with_records(random, &records, rows);
    cells.head.low = low;
    cells
}
