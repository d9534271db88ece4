//! Which transactions run, rule 3.2. In a journal that calls have written, begins rise and each end belongs to a
//! running transaction, of which there are at most eight: one pass with eight places tells all. Records that are not so
//! send the question the slow way, which reads any bytes.

use super::record::{self, Record, ABORT, BEGIN, COMMIT};
use registers::limits::{NO_NUMBER, RUNNING};

/// A running transaction.
#[derive(Clone, Copy)]
struct Open {
    number: u32,
    snapshot: u64,
    /// The place of its begin.
    start: usize,
}

/// The transactions that run after the records passed. The one that began last stands apart: mostly it ends before
/// another begins, and then the others are not looked at.
pub struct Running {
    newest: Option<Open>,
    others: [Open; RUNNING],
    count: usize,
    /// One more than the highest number begun.
    above: u64,
}

impl Running {
    pub fn new() -> Self {
        Running { newest: None, others: [Open { number: 0, snapshot: 0, start: 0 }; RUNNING], count: 0, above: 0 }
    }

    fn all(&self) -> impl Iterator<Item = &Open> {
        self.others[..self.count].iter().chain(&self.newest)
    }

    /// A begin at a place; false where it is not as calls write it.
    #[inline]
    pub fn open(&mut self, r: &Record, place: usize) -> bool {
        let number = record::transaction(r);
        if u64::from(number) < self.above {
            return false;
        }
        self.above = u64::from(number) + 1;
        match self.newest.replace(Open { number, snapshot: record::time(r), start: place }) {
            Some(older) => self.set_aside(older),
            None => true,
        }
    }

    /// One of the others; false where they are too many.
    #[inline(never)]
    fn set_aside(&mut self, open: Open) -> bool {
        if self.count + 1 == RUNNING {
            return false;
        }
        self.others[self.count] = open;
        self.count += 1;
        true
    }

    /// An end; the place of the transaction's begin, or none where it does not run.
    #[inline]
    pub fn close(&mut self, number: u32) -> Option<usize> {
        match self.newest {
            Some(open) if open.number == number => {
                self.newest = None;
                Some(open.start)
            }
            _ => self.close_other(number),
        }
    }

    #[inline(never)]
    fn close_other(&mut self, number: u32) -> Option<usize> {
        let i = self.others[..self.count].iter().position(|o| o.number == number)?;
        let start = self.others[i].start;
        self.count -= 1;
        self.others[i] = self.others[self.count];
        Some(start)
    }

    /// One record more; false where calls cannot have written it there.
    #[inline]
    pub fn step(&mut self, r: &Record, place: usize) -> bool {
        match record::kind(r) {
            BEGIN => self.open(r, place),
            COMMIT | ABORT => self.close(record::transaction(r)).is_some(),
            _ => true,
        }
    }

    pub fn has(&self, number: u32) -> bool {
        self.all().any(|o| o.number == number)
    }
}

/// What begin, update and checkpoint ask of all transactions.
pub struct Tally {
    pub count: usize,
    /// The lowest snapshot of a running transaction.
    pub lowest: Option<u64>,
    /// One more than the highest number begun, 0 where there is none.
    pub above: u64,
}

impl Tally {
    /// The next number, rule 3.3.
    pub fn next(&self, floor: u32) -> u32 {
        self.above.max(u64::from(floor)).min(u64::from(NO_NUMBER)) as u32
    }
}

/// One pass over the records, which shows each of them to the caller as well.
pub fn tally(records: &[Record], mut each: impl FnMut(&Record)) -> Tally {
    let mut running = Running::new();
    let mut regular = true;
    for (place, r) in records.iter().enumerate() {
        each(r);
        regular = regular && running.step(r, place);
    }
    if !regular {
        return tally_any(records);
    }
    let lowest = running.all().map(|o| o.snapshot).min();
    Tally { count: running.all().count(), lowest, above: running.above }
}

/// The same of any bytes.
#[cold]
fn tally_any(records: &[Record]) -> Tally {
    let running = running_of_any(records);
    let numbers = records.iter().filter(|r| record::kind(r) == BEGIN).map(record::transaction);
    Tally {
        count: running.len(),
        lowest: running.iter().map(|&(_, snapshot)| snapshot).min(),
        above: numbers.max().map_or(0, |n| u64::from(n) + 1),
    }
}

/// The distinct numbers with a begin and no end anywhere, and the times of their first begins.
fn running_of_any(records: &[Record]) -> Vec<(u32, u64)> {
    let is_end = |r: &&Record| matches!(record::kind(r), COMMIT | ABORT);
    let mut ended: Vec<u32> = records.iter().filter(is_end).map(record::transaction).collect();
    ended.sort_unstable();
    let begins = records.iter().filter(|r| record::kind(r) == BEGIN);
    let mut begun: Vec<(u32, u64)> = begins.map(|r| (record::transaction(r), record::time(r))).collect();
    // Stable, so that the first begin of a number stays in front and is the one that is left.
    begun.sort_by_key(|b| b.0);
    begun.dedup_by_key(|b| b.0);
    begun.retain(|b| ended.binary_search(&b.0).is_err());
    begun
}

/// The numbers of the running transactions, for a checkpoint.
pub fn running_numbers(records: &[Record]) -> Vec<u32> {
    let mut running = Running::new();
    if records.iter().enumerate().all(|(place, r)| running.step(r, place)) {
        return running.all().map(|o| o.number).collect();
    }
    running_of_any(records).into_iter().map(|(number, _)| number).collect()
}

/// What the records say of one transaction.
pub struct Trace {
    number: u32,
    begun: bool,
    ended: bool,
    pub snapshot: u64,
}

impl Trace {
    pub fn of(number: u32) -> Self {
        Trace { number, begun: false, ended: false, snapshot: 0 }
    }

    /// One record more: the first begin counts, and any end.
    pub fn step(&mut self, r: &Record) {
        if record::transaction(r) != self.number {
            return;
        }
        match record::kind(r) {
            BEGIN if !self.begun => {
                self.begun = true;
                self.snapshot = record::time(r);
            }
            COMMIT | ABORT => self.ended = true,
            _ => {}
        }
    }

    pub fn runs(&self) -> bool {
        self.begun && !self.ended
    }
}
