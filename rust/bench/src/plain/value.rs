//! The value of a key, rules 3.4 and 3.5. Commits before the key's first update change nothing, so a quick search for
//! that update comes first.

use super::record::{self, Record, ADD, ASSIGN, COMMIT};
use super::{apply, Effect};

/// An update of the key that is looked for.
struct Update {
    transaction: u32,
    effect: Effect,
}

/// What the updates of one transaction make of a value.
fn applied(updates: &[Update], number: u32, old: Option<u32>) -> Option<u32> {
    let own = updates.iter().filter(|u| u.transaction == number);
    own.fold(old, |v, u| Some(apply(u.effect, v)))
}

/// The value at t of the key, and all its updates.
fn settle(records: &[Record], start: Option<u32>, k: u32, t: u64) -> (Option<u32>, Vec<Update>) {
    let mut updates = Vec::new();
    let mut v = start;
    let first = records.iter().position(|r| record::key(r) == k && record::is_update(r));
    for r in &records[first.unwrap_or(records.len())..] {
        match record::kind(r) {
            ASSIGN | ADD if record::key(r) == k => {
                updates.push(Update { transaction: record::transaction(r), effect: record::effect(r) });
            }
            COMMIT if record::time(r) <= t => v = applied(&updates, record::transaction(r), v),
            _ => {}
        }
    }
    (v, updates)
}

/// The value of k at t; start is that of its base row.
pub fn value(records: &[Record], start: Option<u32>, k: u32, t: u64) -> Option<u32> {
    settle(records, start, k, t).0
}

/// What a transaction reads in k: the value at its snapshot, then its own updates.
pub fn read(records: &[Record], start: Option<u32>, k: u32, number: u32, snapshot: u64) -> Option<u32> {
    let (v, updates) = settle(records, start, k, snapshot);
    applied(&updates, number, v)
}
