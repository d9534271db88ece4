//! The stores that calls are timed on, made by calls.

use crate::lent::{JournalLent, MapLent};
use crate::stores::{Calls, Plain};
use registers::limits::KEYS;
use registers::numbers::ACCEPTED;
use registers::{Answer, JournalHead, MapHead};

/// How many records a transaction of begin, two updates and commit has.
pub const TRANSACTION_RECORDS: usize = 4;
/// How many versions it adds to a map.
pub const TRANSACTION_VERSIONS: usize = 2;
/// Transactions spread over the registers by a step that meets all of them before it comes round.
const STEP: usize = 37;
/// What a counter is raised by.
pub const RAISE: u32 = 3;

/// How many registers a sampling head has where keys have gaps.
const HEAD_REGISTERS: usize = 8;

/// How a register's key is made of its number.
pub type Keys = fn(usize) -> u32;

/// Keys from 1 up, without gaps.
pub fn dense(register: usize) -> u32 {
    register as u32 + 1
}

/// Keys with gaps: head times 256 plus register.
pub fn gapped(register: usize) -> u32 {
    ((register / HEAD_REGISTERS + 1) * 256 + register % HEAD_REGISTERS) as u32
}

/// The number of the register that is the i-th to be touched.
fn touched(i: usize, registers: usize) -> usize {
    i * STEP % registers.max(1)
}

/// The key of that register, keys without gaps.
pub fn register(i: usize, registers: usize) -> u32 {
    dense(touched(i, registers))
}

/// The value that a call was accepted with.
fn taken(answer: Answer) -> u64 {
    assert_eq!(answer.number, ACCEPTED, "a call that fills a store is refused: {answer:?}");
    answer.value
}

/// A journal store, and the time of its last commit.
#[derive(Clone, PartialEq, Eq, Debug)]
pub struct JournalStore {
    pub head: JournalHead,
    pub lent: JournalLent,
    pub last: u64,
}

impl JournalStore {
    pub fn empty() -> Self {
        JournalStore { head: <Plain as Calls<_, JournalLent>>::empty(), lent: JournalLent::whole(), last: 0 }
    }

    /// So many registers in the base, and so many transactions of two updates in the journal.
    pub fn filled(registers: usize, transactions: usize) -> Self {
        JournalStore::filled_with(dense, registers, transactions)
    }

    pub fn filled_with(key: Keys, registers: usize, transactions: usize) -> Self {
        let mut s = JournalStore::empty();
        let keys: Vec<u32> = (0..registers).map(key).collect();
        for part in keys.chunks(KEYS) {
            let n = s.begun(s.last);
            part.iter().for_each(|&k| s.assigned(n, k, k));
            s.committed(n);
        }
        taken(Plain::checkpoint(&mut s.head, &mut s.lent, s.last));
        for i in 0..transactions {
            let n = s.updated(s.last, key(touched(2 * i, registers)), key(touched(2 * i + 1, registers)));
            s.committed(n);
        }
        s
    }

    /// A transaction begun with a snapshot; its number.
    pub fn begun(&mut self, snapshot: u64) -> u32 {
        taken(Plain::begin(&mut self.head, &mut self.lent, snapshot)) as u32
    }

    pub fn assigned(&mut self, n: u32, k: u32, v: u32) {
        taken(Plain::assign(&mut self.head, &mut self.lent, n, k, v));
    }

    /// A transaction begun and two registers updated; its number.
    pub fn updated(&mut self, snapshot: u64, k: u32, other: u32) -> u32 {
        let n = self.begun(snapshot);
        self.assigned(n, k, self.last as u32);
        taken(Plain::add(&mut self.head, &mut self.lent, n, other, RAISE));
        n
    }

    pub fn committed(&mut self, n: u32) {
        self.last += 1;
        taken(Plain::commit(&mut self.head, &mut self.lent, n, self.last));
    }

    /// Two transactions raise a counter at the same time, and one has committed; the number of the other.
    pub fn shared(&mut self, k: u32) -> u32 {
        let [first, second] = [self.last; 2].map(|snapshot| self.begun(snapshot));
        for n in [first, second] {
            taken(Plain::add(&mut self.head, &mut self.lent, n, k, RAISE));
        }
        self.committed(first);
        second
    }

    pub fn aborted(&mut self, n: u32) {
        taken(Plain::abort(&mut self.head, &mut self.lent, n));
    }
}

/// A map store; its last commit stands in the head.
#[derive(Clone, PartialEq, Eq, Debug)]
pub struct MapStore {
    pub head: MapHead,
    pub lent: MapLent,
}

impl MapStore {
    pub fn empty() -> Self {
        MapStore { head: <Plain as Calls<_, MapLent>>::empty(), lent: MapLent::whole() }
    }

    /// So many transactions of two updates, spread over the registers.
    pub fn filled(registers: usize, transactions: usize) -> Self {
        MapStore::filled_with(dense, registers, transactions)
    }

    pub fn filled_with(key: Keys, registers: usize, transactions: usize) -> Self {
        let mut s = MapStore::empty();
        for i in 0..transactions {
            let last = s.head.last;
            let n = s.updated(last, key(touched(2 * i, registers)), key(touched(2 * i + 1, registers)));
            s.committed(n);
        }
        s
    }

    fn committed(&mut self, n: u32) {
        let later = self.head.last + 1;
        taken(Plain::commit(&mut self.head, &mut self.lent, n, later));
    }

    /// Two transactions raise a counter at the same time, and one has committed; the number of the other.
    pub fn shared(&mut self, k: u32) -> u32 {
        let [first, second] = [self.head.last; 2].map(|snapshot| self.begun(snapshot));
        for n in [first, second] {
            taken(Plain::add(&mut self.head, &mut self.lent, n, k, RAISE));
        }
        self.committed(first);
        second
    }

    pub fn begun(&mut self, snapshot: u64) -> u32 {
        taken(Plain::begin(&mut self.head, &mut self.lent, snapshot)) as u32
    }

    pub fn assigned(&mut self, n: u32, k: u32, v: u32) {
        taken(Plain::assign(&mut self.head, &mut self.lent, n, k, v));
    }

    pub fn updated(&mut self, snapshot: u64, k: u32, other: u32) -> u32 {
        let n = self.begun(snapshot);
        self.assigned(n, k, self.head.last as u32);
        taken(Plain::add(&mut self.head, &mut self.lent, n, other, RAISE));
        n
    }
}
