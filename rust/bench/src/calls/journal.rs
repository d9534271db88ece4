//! The journal store's calls, timed one by one.

use super::cases::{self, pair, Case, Outcome, ASSIGNED, COMPARED, COPIES_EMPTY, COPIES_FILLED};
use super::fixture::{gapped, register, JournalStore, RAISE, TRANSACTION_RECORDS};
use crate::lent::JournalLent;
use crate::lent::LIST_ROWS;
use crate::report::Pair;
use crate::stores::{Calls, JournalCalls, Plain, Proved};
use crate::timing;
use registers::limits::{JOURNAL_RECORDS, RECORD_BYTES};
use registers::{Answer, JournalHead};
use std::hint::black_box;

type Timed = cases::Timed<JournalHead, JournalLent>;

pub fn names() -> Vec<&'static str> {
    cases::names(&cases::JOURNAL)
}

/// A call that only adds behind the used records, or nothing: with the old head it does the same again.
fn again(s: &JournalStore, mut call: impl FnMut(&mut JournalHead, &mut JournalLent, usize) -> Answer) -> Timed {
    let mut lent = s.lent.clone();
    let mut head = s.head;
    let mut answers = Vec::new();
    for i in 0..COMPARED {
        head = s.head;
        answers.push(call(&mut head, &mut lent, i));
    }
    let outcome = Outcome { answers, head, lent: lent.clone() };
    let ns = timing::repeated(|i| {
        let mut head = s.head;
        black_box(call(black_box(&mut head), black_box(&mut lent), i));
    });
    (ns, outcome)
}

/// A call that changes used cells: each is made on a copy that is made good before.
fn on_copies(s: &JournalStore, mut call: impl FnMut(&mut JournalHead, &mut JournalLent) -> Answer) -> Timed {
    let mut first = s.clone();
    let answers = vec![call(&mut first.head, &mut first.lent)];
    let outcome = Outcome { answers, head: first.head, lent: first.lent };
    let mut copies = vec![s.clone(); if s.head.used == 0 { COPIES_EMPTY } else { COPIES_FILLED }];
    let restore = |copy: &mut JournalStore| {
        let (rows, bytes) = (s.head.base_rows, s.head.used * RECORD_BYTES);
        copy.head = s.head;
        copy.lent.keys[..rows].copy_from_slice(&s.lent.keys[..rows]);
        copy.lent.values[..rows].copy_from_slice(&s.lent.values[..rows]);
        copy.lent.journal[..bytes].copy_from_slice(&s.lent.journal[..bytes]);
    };
    let ns = timing::restored(&mut copies, restore, |copy| {
        black_box(call(black_box(&mut copy.head), black_box(&mut copy.lent)));
    });
    (ns, outcome)
}

/// A list, whose rows are compared as if they were answers.
fn listing<C: JournalCalls>(s: &JournalStore) -> Timed {
    let (mut keys, mut values) = (vec![0; LIST_ROWS], vec![0; LIST_ROWS]);
    let (ns, mut outcome) = again(s, |h, l, _| C::list(h, l, s.last, &mut keys, &mut values));
    outcome.answers.extend(cases::rows(&keys, &values));
    (ns, outcome)
}

/// The stores of one size: with the journal as full as said, with one transaction less, so that one can run, and with
/// gaps between the keys.
struct Level {
    registers: usize,
    whole: JournalStore,
    short: JournalStore,
    /// With two transactions less, so that two can run.
    shorter: JournalStore,
    gapped: JournalStore,
}

/// Two registers that nobody has written, so that a commit with an old snapshot meets no conflict.
fn fresh(registers: usize) -> (u32, u32) {
    (registers as u32 + 1, registers as u32 + 2)
}

impl Level {
    fn new(registers: usize, records: usize) -> Self {
        let transactions = records / TRANSACTION_RECORDS;
        Level {
            registers,
            whole: JournalStore::filled(registers, transactions),
            short: JournalStore::filled(registers, transactions.saturating_sub(1)),
            shorter: JournalStore::filled(registers, transactions.saturating_sub(2)),
            gapped: JournalStore::filled_with(gapped, registers, transactions),
        }
    }

    /// The store that a call is made on, and the number of the transaction that runs there.
    fn ready(&self, case: Case) -> (JournalStore, u32) {
        let mut s = self.short.clone();
        let (low, last, (k, other)) = (s.head.low, s.last, fresh(self.registers));
        let n = match case {
            Case::Begin => 0,
            Case::Assign => s.begun(last),
            Case::Add | Case::Read => {
                let n = s.begun(last);
                s.assigned(n, 1, ASSIGNED);
                n
            }
            Case::Commit | Case::Abort => s.updated(last, 1, 2),
            Case::CommitOld => s.updated(low, k, other),
            Case::CommitShared => {
                s = self.shorter.clone();
                s.shared(1)
            }
            Case::ListGapped | Case::CheckpointGapped => return (self.gapped.clone(), 0),
            _ => return (self.whole.clone(), 0),
        };
        (s, n)
    }

    fn time<C: JournalCalls>(&self, case: Case) -> Timed {
        let (s, n) = self.ready(case);
        let key = |i| register(i, self.registers);
        let halfway = s.head.low + (s.last - s.head.low) / 2;
        match case {
            Case::Begin => again(&s, |h, l, _| C::begin(h, l, s.last)),
            Case::Assign => again(&s, |h, l, i| C::assign(h, l, n, key(i), ASSIGNED)),
            Case::Add => again(&s, |h, l, i| C::add(h, l, n, key(i), RAISE)),
            Case::Read => again(&s, |h, l, i| C::read(h, l, n, key(i))),
            Case::Commit | Case::CommitOld | Case::CommitShared => again(&s, |h, l, _| C::commit(h, l, n, s.last + 1)),
            Case::Abort => again(&s, |h, l, _| C::abort(h, l, n)),
            Case::Lookup => again(&s, |h, l, i| C::lookup(h, l, key(i), s.last)),
            Case::List | Case::ListGapped => listing::<C>(&s),
            Case::Checkpoint | Case::CheckpointGapped => on_copies(&s, |h, l| C::checkpoint(h, l, s.last)),
            Case::CheckpointHalf => on_copies(&s, |h, l| C::checkpoint(h, l, halfway)),
            Case::Recover => on_copies(&s, |h, l| C::recover(h, l, s.head.used * RECORD_BYTES)),
        }
    }
}

/// The times of all calls on a store with so many registers in the base and so many records in the journal.
pub fn times(registers: usize, records: usize) -> Vec<Pair> {
    let level = Level::new(registers, records);
    cases::best(&cases::JOURNAL, |case, name| pair(level.time::<Proved>(case), level.time::<Plain>(case), name))
}

/// One transaction in so many is aborted, in the journal of which a part is dropped.
const ABORTED: usize = 4;

/// A full journal in which some transactions were aborted.
fn with_aborted(registers: usize) -> JournalStore {
    let mut s = JournalStore::filled(registers, 0);
    for i in 0..JOURNAL_RECORDS / TRANSACTION_RECORDS {
        let n = s.updated(s.last, register(2 * i, registers), register(2 * i + 1, registers));
        if i % ABORTED == 0 {
            s.aborted(n);
        } else {
            s.committed(n);
        }
    }
    s
}

/// Transactions that run at the same time in the journal of several writers: as many as leave the room that rule 3.11
/// asks for.
const WRITERS: usize = 7;

/// A journal in which several transactions run at a time, each with registers of its own.
fn with_writers(registers: usize) -> JournalStore {
    let mut s = JournalStore::filled(registers, 0);
    let rounds = (JOURNAL_RECORDS / TRANSACTION_RECORDS - WRITERS) / WRITERS;
    for i in (0..rounds * WRITERS).step_by(WRITERS) {
        let key = |j| register(j, registers);
        let running: Vec<u32> = (i..i + WRITERS).map(|j| s.updated(s.last, key(2 * j), key(2 * j + 1))).collect();
        running.into_iter().for_each(|n| s.committed(n));
    }
    s
}

/// Recovery by both of so many bytes.
fn recovery(name: &str, s: &JournalStore, survived: usize) -> Pair {
    let proved = on_copies(s, |h, l| Proved::recover(h, l, survived));
    let plain = on_copies(s, |h, l| Plain::recover(h, l, survived));
    pair(proved, plain, name)
}

/// Recovery of a full journal in several states: its name, how many records it has, and the times.
pub fn recoveries(registers: usize) -> Vec<(&'static str, usize, Pair)> {
    let whole = JournalStore::filled(registers, JOURNAL_RECORDS / TRANSACTION_RECORDS);
    let mut damaged = whole.clone();
    let end = whole.head.used * RECORD_BYTES;
    // Byte 1 of a record is always zero; here it is not, in the last record.
    damaged.lent.journal[end - RECORD_BYTES + 1] = 1;
    let aborted = with_aborted(registers);
    let writers = with_writers(registers);
    let cut = end - 1;
    let stores = [
        ("all committed", &whole, end),
        ("cut inside the last record", &whole, cut),
        ("every fourth aborted", &aborted, end),
        ("seven writers at a time", &writers, writers.head.used * RECORD_BYTES),
        ("refused at the last record", &damaged, end),
    ];
    let round = || stores.map(|(name, s, survived)| recovery(name, s, survived));
    let mut best = round();
    for _ in 1..timing::ROUNDS {
        best.iter_mut().zip(round()).for_each(|(a, b)| *a = a.min(b));
    }
    stores.iter().zip(best).map(|(&(name, _, survived), pair)| (name, survived / RECORD_BYTES, pair)).collect()
}
