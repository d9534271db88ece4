//! Section 3 for the map store: what versions and slots say.

use super::{added, KEYS_WRITTEN};
use registers::{MapHead, Slot};
use std::collections::BTreeSet;

/// The used rows of the four version columns.
pub struct Versions<'a> {
    pub keys: &'a [u32],
    pub times: &'a [u64],
    pub values: &'a [u32],
    pub marks: &'a [u8],
}

impl Versions<'_> {
    /// 3.8: the row of the newest version of k at or before t: the greatest time, the earliest row among equals.
    pub fn newest(&self, k: u32, t: u64) -> Option<usize> {
        let mut best: Option<usize> = None;
        for row in (0..self.keys.len()).filter(|&row| self.keys[row] == k && self.times[row] <= t) {
            if best.is_none_or(|earlier| self.times[row] > self.times[earlier]) {
                best = Some(row);
            }
        }
        best
    }

    pub fn value_at(&self, k: u32, t: u64) -> Option<u32> {
        self.newest(k, t).map(|row| self.values[row])
    }

    /// 3.4: every key from 1 up that is not absent at t, once, rising, with its value.
    pub fn list_at(&self, t: u64) -> Vec<(u32, u32)> {
        let keys: BTreeSet<u32> = self.keys.iter().copied().filter(|&k| k >= 1).collect();
        keys.into_iter().filter_map(|k| self.value_at(k, t).map(|v| (k, v))).collect()
    }

    /// 3.10: the rows that a checkpoint at T keeps: those after T and, for each key, its newest at or before T.
    pub fn kept_at(&self, t: u64) -> Vec<usize> {
        let keys: BTreeSet<u32> = self.keys.iter().copied().collect();
        let newest: BTreeSet<usize> = keys.into_iter().filter_map(|k| self.newest(k, t)).collect();
        (0..self.keys.len()).filter(|row| self.times[*row] > t || newest.contains(row)).collect()
    }

    /// 3.6 and T-01: a version of a key of the slot is later than its snapshot, and not both were made by adds only.
    pub fn conflict(&self, slot: &Slot) -> bool {
        let later = (0..self.keys.len()).filter(|&row| self.times[row] > slot.snapshot);
        let meets = |row: usize, own: usize| self.marks[row] == 0 || !only_added(slot, own);
        later.into_iter().any(|row| row_of(slot, self.keys[row]).is_some_and(|own| meets(row, own)))
    }
}

/// 3.8: occupied slots are the one bits of a single number.
pub fn is_occupied(head: &MapHead, place: usize) -> bool {
    head.slots.occupied & (1 << place) != 0
}

pub fn occupied_slots(head: &MapHead) -> impl Iterator<Item = &Slot> {
    (0..8).filter(|&place| is_occupied(head, place)).map(|place| &head.slots.slots[place])
}

/// 3.8: of several occupied slots with one number the lowest counts.
pub fn place_of(head: &MapHead, n: u32) -> Option<usize> {
    (0..8).find(|&place| is_occupied(head, place) && head.slots.slots[place].number == n)
}

/// 3.8: each new transaction goes into the lowest-numbered free slot.
pub fn free_place(head: &MapHead) -> Option<usize> {
    (0..8).find(|&place| !is_occupied(head, place))
}

/// 3.8: the row of a key in a slot; of one key twice in a slot, the first.
pub fn row_of(slot: &Slot, k: u32) -> Option<usize> {
    slot.keys[..slot.count].iter().position(|&key| key == k)
}

/// 3.8: the rows that a commit makes versions of: one for each key, in order of first update.
pub fn first_rows(slot: &Slot) -> Vec<usize> {
    (0..slot.count).filter(|&row| row_of(slot, slot.keys[row]) == Some(row)).collect()
}

/// T-01: the transaction used nothing but add on the key of this row. 0 is unmarked, any other number marked.
pub fn only_added(slot: &Slot, row: usize) -> bool {
    slot.marks[row] != 0
}

/// What the effects in a row of a slot make of a value: their total is added, or what they assigned stands.
pub fn settled(slot: &Slot, row: usize, old: Option<u32>) -> u32 {
    if only_added(slot, row) {
        return added(old, slot.values[row]);
    }
    slot.values[row]
}

/// 3.8: a freed slot is all zero.
pub const ZERO_SLOT: Slot = Slot {
    number: 0,
    snapshot: 0,
    count: 0,
    keys: [0; KEYS_WRITTEN],
    values: [0; KEYS_WRITTEN],
    marks: [0; KEYS_WRITTEN],
};
