//! Section 3 for the journal store: what a base and the records above it say. Any records are read, also damaged ones.

use super::record::{Record, ADD, ASSIGN, BEGIN, COMMIT};
use super::{added, NO_NUMBER};
use std::collections::BTreeSet;

/// All that the rules of the journal store look at.
pub struct Journal<'a> {
    pub low: u64,
    pub floor: u32,
    pub base_keys: &'a [u32],
    pub base_values: &'a [u32],
    pub records: Vec<Record>,
}

/// 3.1, for a record of kind 2 or 3.
fn effect(old: Option<u32>, record: &Record) -> Option<u32> {
    match record.kind {
        ASSIGN => Some(record.value),
        ADD => Some(added(old, record.value)),
        _ => old,
    }
}

impl Journal<'_> {
    /// 3.2: the journal has its begin and neither its commit nor its abort, wherever they stand.
    pub fn runs(&self, n: u32) -> bool {
        self.has_begin(n) && !self.records.iter().any(|r| r.is_end() && r.transaction == n)
    }

    fn has_begin(&self, n: u32) -> bool {
        self.records.iter().any(|r| r.kind == BEGIN && r.transaction == n)
    }

    /// 3.2: every number that runs, once, in the order of first begins.
    pub fn running(&self) -> Vec<u32> {
        let mut seen: BTreeSet<u32> = self.records.iter().filter(|r| r.is_end()).map(|r| r.transaction).collect();
        let begun = self.records.iter().filter(|r| r.kind == BEGIN).map(|r| r.transaction);
        begun.filter(|&n| seen.insert(n)).collect()
    }

    /// 3.2: the time of its first begin.
    pub fn snapshot(&self, n: u32) -> Option<u64> {
        self.records.iter().find(|r| r.kind == BEGIN && r.transaction == n).map(|r| r.time)
    }

    /// 3.2: the keys that it wrote.
    pub fn keys_written(&self, n: u32) -> BTreeSet<u32> {
        self.records.iter().filter(|r| r.is_update() && r.transaction == n).map(|r| r.key).collect()
    }

    /// 3.3: the greatest of low and all commit times.
    pub fn last(&self) -> u64 {
        self.records.iter().filter(|r| r.kind == COMMIT).map(|r| r.time).fold(self.low, u64::max)
    }

    /// 3.3: the greater of floor and one more than the highest number in a begin, never above 4,294,967,295.
    pub fn next(&self) -> u32 {
        let highest = self.records.iter().filter(|r| r.kind == BEGIN).map(|r| r.transaction).max();
        let after = highest.map_or(0, |n| u64::from(n) + 1);
        after.max(u64::from(self.floor)).min(u64::from(NO_NUMBER)) as u32
    }

    /// 3.4: the first of several base rows for a key counts.
    fn base_value(&self, k: u32) -> Option<u32> {
        let row = self.base_keys.iter().position(|&key| key == k)?;
        Some(self.base_values[row])
    }

    /// 3.4: the value of key k at time t.
    pub fn value_at(&self, k: u32, t: u64) -> Option<u32> {
        let numbered = self.records.iter().enumerate();
        let updates: Vec<(usize, &Record)> = numbered.clone().filter(|(_, r)| r.is_update() && r.key == k).collect();
        let mut value = self.base_value(k);
        if updates.is_empty() {
            return value;
        }
        for (place, commit) in numbered.filter(|(_, r)| r.kind == COMMIT && r.time <= t) {
            let before = updates.iter().filter(|(at, r)| *at < place && r.transaction == commit.transaction);
            for (_, update) in before {
                value = effect(value, update);
            }
        }
        value
    }

    /// 3.4: every key from 1 up that is not absent at t, once, rising, with its value. Only keys of the base and of
    /// updates can be present.
    pub fn list_at(&self, t: u64) -> Vec<(u32, u32)> {
        let updated = self.records.iter().filter(|r| r.is_update()).map(|r| r.key);
        let keys: BTreeSet<u32> = updated.chain(self.base_keys.iter().copied()).filter(|&k| k >= 1).collect();
        keys.into_iter().filter_map(|k| self.value_at(k, t).map(|v| (k, v))).collect()
    }

    /// 3.5: the value at its snapshot, then its own effects on the key in order.
    pub fn read(&self, n: u32, k: u32) -> Option<u32> {
        let at_snapshot = self.snapshot(n).and_then(|t| self.value_at(k, t));
        let own = self.records.iter().filter(|r| r.is_update() && r.transaction == n && r.key == k);
        own.fold(at_snapshot, effect)
    }

    /// T-01: no record of it assigns the key.
    fn only_added(&self, n: u32, k: u32) -> bool {
        !self.records.iter().any(|r| r.kind == ASSIGN && r.transaction == n && r.key == k)
    }

    /// 3.6: some commit with a time later than its snapshot is of a transaction that wrote a key this one has written.
    /// T-01: a shared key is no conflict if both used nothing but add on it.
    pub fn conflicts(&self, n: u32) -> bool {
        let snapshot = self.snapshot(n).unwrap_or(0);
        let mine = self.keys_written(n);
        let later = self.records.iter().filter(|r| r.kind == COMMIT && r.time > snapshot);
        let others: BTreeSet<u32> = later.map(|r| r.transaction).collect();
        let shared = self.records.iter().filter(|r| r.is_update() && mine.contains(&r.key));
        let meets = |r: &Record| !self.only_added(n, r.key) || !self.only_added(r.transaction, r.key);
        shared.into_iter().any(|r| others.contains(&r.transaction) && meets(r))
    }

    /// 3.9: the records that a checkpoint at T keeps, in order: those of transactions that run or committed after T,
    /// kinds 1 to 5 only. A kept begin with a snapshot below T gets T; nothing else in a record changes.
    pub fn kept_at(&self, t: u64) -> Vec<Record> {
        let after = self.records.iter().filter(|r| r.kind == COMMIT && r.time > t).map(|r| r.transaction);
        let stays: BTreeSet<u32> = self.running().into_iter().chain(after).collect();
        let kept = self.records.iter().filter(|r| (1..=5).contains(&r.kind) && stays.contains(&r.transaction));
        kept.map(|r| if r.kind == BEGIN && r.time < t { Record { time: t, ..*r } } else { *r }).collect()
    }

    /// 3.11: 2 free records plus one for each transaction already running.
    pub fn begin_needs(&self) -> usize {
        2 + self.running().len()
    }

    /// 3.11: 1 plus one for each running, its own included.
    pub fn update_needs(&self) -> usize {
        1 + self.running().len()
    }
}
