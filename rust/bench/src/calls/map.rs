//! The map store's calls, timed one by one.

use super::cases::{self, pair, Case, ASSIGNED, COMPARED, COPIES_EMPTY, COPIES_FILLED};
use super::fixture::{gapped, register, MapStore, RAISE, TRANSACTION_VERSIONS};
use crate::lent::MapLent;
use crate::lent::LIST_ROWS;
use crate::report::Pair;
use crate::stores::{MapCalls, Plain, Proved};
use crate::timing;
use registers::{Answer, MapHead};
use std::hint::black_box;

type Outcome = cases::Outcome<Box<MapHead>, MapLent>;
type Timed = cases::Timed<Box<MapHead>, MapLent>;

pub fn names() -> Vec<&'static str> {
    cases::names(cases::map())
}

/// How many heads one sample of a writing call works on: as many as fit beside the processor.
const HEADS: usize = 16;

/// The answers to the first calls, each with the old head, and what the last of them leaves.
fn outcome(s: &MapStore, call: &mut impl FnMut(&mut MapHead, &mut MapLent, usize) -> Answer) -> Outcome {
    let mut lent = s.lent.clone();
    let mut head = Box::new(s.head);
    let mut answers = Vec::new();
    for i in 0..COMPARED {
        *head = s.head;
        answers.push(call(&mut head, &mut lent, i));
    }
    Outcome { answers, head, lent }
}

/// A call that changes nothing.
fn reading(s: &MapStore, mut call: impl FnMut(&mut MapHead, &mut MapLent, usize) -> Answer) -> Timed {
    let outcome = outcome(s, &mut call);
    let (mut head, mut lent) = (s.head, s.lent.clone());
    let ns = timing::repeated(|i| {
        black_box(call(black_box(&mut head), black_box(&mut lent), i));
    });
    (ns, outcome)
}

/// A call that changes the head, and adds behind the used versions: made on one head after the other, which are made
/// good before.
fn on_heads(s: &MapStore, mut call: impl FnMut(&mut MapHead, &mut MapLent, usize) -> Answer) -> Timed {
    let outcome = outcome(s, &mut call);
    let mut lent = s.lent.clone();
    let mut heads = vec![s.head; HEADS];
    let mut made = 0;
    let restore = |head: &mut MapHead| *head = s.head;
    let ns = timing::restored(&mut heads, restore, |head| {
        black_box(call(black_box(head), black_box(&mut lent), made));
        made += 1;
    });
    (ns, outcome)
}

/// A checkpoint: made on a copy that is made good before.
fn on_copies(s: &MapStore, mut call: impl FnMut(&mut MapHead, &mut MapLent) -> Answer) -> Timed {
    let mut first = s.clone();
    let answers = vec![call(&mut first.head, &mut first.lent)];
    let outcome = Outcome { answers, head: Box::new(first.head), lent: first.lent };
    let used = s.head.used;
    let mut copies = vec![s.clone(); if used == 0 { COPIES_EMPTY } else { COPIES_FILLED }];
    let restore = |copy: &mut MapStore| {
        copy.head = s.head;
        copy.lent.keys[..used].copy_from_slice(&s.lent.keys[..used]);
        copy.lent.times[..used].copy_from_slice(&s.lent.times[..used]);
        copy.lent.values[..used].copy_from_slice(&s.lent.values[..used]);
        copy.lent.marks[..used].copy_from_slice(&s.lent.marks[..used]);
    };
    let ns = timing::restored(&mut copies, restore, |copy| {
        black_box(call(black_box(&mut copy.head), black_box(&mut copy.lent)));
    });
    (ns, outcome)
}

/// A list, whose rows are compared as if they were answers.
fn listing<C: MapCalls>(s: &MapStore) -> Timed {
    let (mut keys, mut values) = (vec![0; LIST_ROWS], vec![0; LIST_ROWS]);
    let (ns, mut outcome) = reading(s, |h, l, _| C::list(h, l, s.head.last, &mut keys, &mut values));
    outcome.answers.extend(cases::rows(&keys, &values));
    (ns, outcome)
}

/// The stores of one size: with as many versions as said, with one transaction less, so that one can commit, and with
/// gaps between the keys.
struct Level {
    registers: usize,
    whole: MapStore,
    short: MapStore,
    gapped: MapStore,
}

impl Level {
    fn new(registers: usize, versions: usize) -> Self {
        let transactions = versions / TRANSACTION_VERSIONS;
        Level {
            registers,
            whole: MapStore::filled(registers, transactions),
            short: MapStore::filled(registers, transactions.saturating_sub(1)),
            gapped: MapStore::filled_with(gapped, registers, transactions),
        }
    }

    /// The store that a call is made on, and the number of the transaction that runs there.
    fn ready(&self, case: Case) -> (MapStore, u32) {
        let mut s = self.short.clone();
        let (low, last, fresh) = (s.head.low, s.head.last, self.registers as u32 + 1);
        let n = match case {
            Case::Begin => 0,
            Case::Assign => s.begun(last),
            Case::Add | Case::Read => {
                let n = s.begun(last);
                s.assigned(n, 1, ASSIGNED);
                n
            }
            Case::Commit | Case::Abort => s.updated(last, 1, 2),
            // Two registers that nobody has written, so that an old snapshot meets no conflict.
            Case::CommitOld => s.updated(low, fresh, fresh + 1),
            Case::CommitShared => s.shared(1),
            Case::ListGapped | Case::CheckpointGapped => return (self.gapped.clone(), 0),
            _ => return (self.whole.clone(), 0),
        };
        (s, n)
    }

    fn time<C: MapCalls>(&self, case: Case) -> Timed {
        let (s, n) = self.ready(case);
        let key = |i| register(i, self.registers);
        let last = s.head.last;
        match case {
            Case::Begin => on_heads(&s, |h, l, _| C::begin(h, l, last)),
            Case::Assign => on_heads(&s, |h, l, i| C::assign(h, l, n, key(i), ASSIGNED)),
            Case::Add => on_heads(&s, |h, l, i| C::add(h, l, n, key(i), RAISE)),
            Case::Read => reading(&s, |h, l, i| C::read(h, l, n, key(i))),
            Case::Commit | Case::CommitOld | Case::CommitShared => on_heads(&s, |h, l, _| C::commit(h, l, n, last + 1)),
            Case::Abort => on_heads(&s, |h, l, _| C::abort(h, l, n)),
            Case::Lookup => reading(&s, |h, l, i| C::lookup(h, l, key(i), last)),
            Case::List | Case::ListGapped => listing::<C>(&s),
            Case::Checkpoint | Case::CheckpointGapped => on_copies(&s, |h, l| C::checkpoint(h, l, last)),
            Case::CheckpointHalf => on_copies(&s, |h, l| C::checkpoint(h, l, last / 2)),
            Case::Recover => unreachable!("the map store has no recover"),
        }
    }
}

/// The times of all calls on a store with so many versions of so many registers.
pub fn times(registers: usize, versions: usize) -> Vec<Pair> {
    let level = Level::new(registers, versions);
    cases::best(cases::map(), |case, name| pair(level.time::<Proved>(case), level.time::<Plain>(case), name))
}
