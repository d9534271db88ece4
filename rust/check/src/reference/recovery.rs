//! Section 5: recovery of a journal from the bytes that survived.

use super::journal::{bad_base, write_records, Lent};
use super::journal_rules::Journal;
use super::record::{records_of, Record, ABORT, ADD, ASSIGN, BEGIN, COMMIT, SIZE};
use super::reply::{refuse, Refusal, Reply};
use super::{KEYS_WRITTEN, NO_NUMBER, RECORDS, RUNNING};
use registers::JournalHead;
use std::collections::{BTreeMap, BTreeSet};

/// 6 no. 1 for recover: the used count is ignored, the surviving bytes are a count, the base keys rise from 1.
fn bad_shape(head: &JournalHead, lent: &Lent, survived: usize) -> bool {
    let too_many = survived > RECORDS * SIZE || survived > lent.journal.len();
    too_many || bad_base(head, lent) || !rise_from_one(&lent.keys[..head.base_rows])
}

fn rise_from_one(keys: &[u32]) -> bool {
    let first_good = keys.first().is_none_or(|&key| key >= 1);
    first_good && keys.windows(2).all(|pair| pair[0] < pair[1])
}

/// What the walk knows from the records before the present one.
struct Walk {
    low: u64,
    last: u64,
    highest: u32,
    running: BTreeMap<u32, Running>,
    /// Each commit so far: its time and the keys that its transaction wrote.
    commits: Vec<(u64, Keys)>,
}

/// The keys that a transaction wrote; true where it used nothing but add on the key.
type Keys = BTreeMap<u32, bool>;

struct Running {
    snapshot: u64,
    keys: Keys,
}

/// T-01: a key that both wrote, and that not both used nothing but add on.
fn meet(one: &Keys, other: &Keys) -> bool {
    one.iter().any(|(key, added)| other.get(key).is_some_and(|other_added| !added || !other_added))
}

impl Walk {
    fn start(low: u64) -> Walk {
        Walk { low, last: low, highest: 0, running: BTreeMap::new(), commits: Vec::new() }
    }

    /// Whether an accepted call would write the record here; if so, the walk goes past it.
    fn takes(&mut self, record: &Record) -> bool {
        if record.gap != [0; 3] {
            return false;
        }
        match record.kind {
            BEGIN => self.takes_begin(record),
            ASSIGN | ADD => self.takes_update(record),
            COMMIT => self.takes_commit(record),
            ABORT => self.takes_abort(record),
            _ => false,
        }
    }

    /// The number need only exceed those of earlier begins and lie in section 2's range.
    fn takes_begin(&mut self, record: &Record) -> bool {
        let Record { transaction: n, key, value, time, .. } = *record;
        let number_good = n > self.highest && n < NO_NUMBER;
        let time_good = self.low <= time && time <= self.last;
        if !number_good || !time_good || key != 0 || value != 0 || self.running.len() >= RUNNING {
            return false;
        }
        self.highest = n;
        self.running.insert(n, Running { snapshot: time, keys: Keys::new() });
        true
    }

    fn takes_update(&mut self, record: &Record) -> bool {
        let Some(running) = self.running.get_mut(&record.transaction) else { return false };
        let keys_full = !running.keys.contains_key(&record.key) && running.keys.len() >= KEYS_WRITTEN;
        if record.key == 0 || record.time != 0 || keys_full {
            return false;
        }
        *running.keys.entry(record.key).or_insert(true) &= record.kind == ADD;
        true
    }

    fn takes_commit(&mut self, record: &Record) -> bool {
        let Some(running) = self.running.get(&record.transaction) else { return false };
        let later = self.commits.iter().filter(|(time, _)| *time > running.snapshot);
        let conflict = later.into_iter().any(|(_, keys)| meet(keys, &running.keys));
        if record.key != 0 || record.value != 0 || record.time <= self.last || conflict {
            return false;
        }
        let ended = self.running.remove(&record.transaction);
        self.commits.extend(ended.map(|running| (record.time, running.keys)));
        self.last = record.time;
        true
    }

    fn takes_abort(&mut self, record: &Record) -> bool {
        let unused_zero = record.key == 0 && record.value == 0 && record.time == 0;
        unused_zero && self.running.remove(&record.transaction).is_some()
    }
}

pub fn recover(head: &mut JournalHead, lent: &mut Lent, survived: usize) -> Reply {
    refuse(1, bad_shape(head, lent, survived))?;
    let records = records_of(&lent.journal[..survived]);
    let mut walk = Walk::start(head.low);
    if let Some(place) = records.iter().position(|record| !walk.takes(record)) {
        return Err(Refusal { number: 13, place: Some(place) });
    }
    let committed: BTreeSet<u32> = records.iter().filter(|r| r.kind == COMMIT).map(|r| r.transaction).collect();
    let kept: Vec<Record> = records.iter().copied().filter(|r| committed.contains(&r.transaction)).collect();
    head.floor = next_before_dropping(head, records);
    head.used = kept.len();
    write_records(&kept, &mut lent.journal[..survived]);
    Ok(None)
}

/// Section 5 with 3.3: dropped begins count too, so that their numbers are not given again.
fn next_before_dropping(head: &JournalHead, records: Vec<Record>) -> u32 {
    Journal { low: head.low, floor: head.floor, base_keys: &[], base_values: &[], records }.next()
}
