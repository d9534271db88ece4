//! The journal store and the map store as engines of the workload.

use super::engine::{Engine, REGISTERS};
use crate::calls::fixture::{TRANSACTION_RECORDS, TRANSACTION_VERSIONS};
use crate::lent::{JournalLent, MapLent};
use crate::stores::{Calls, JournalCalls, MapCalls};
use registers::limits::KEYS;
use registers::numbers::ACCEPTED;
use registers::{Answer, JournalHead, MapHead};
use std::marker::PhantomData;

/// The value of an accepted call.
fn taken(answer: Answer) -> u64 {
    assert_eq!(answer.number, ACCEPTED, "a call of the workload is refused: {answer:?}");
    answer.value
}

/// A journal store or a map store as an engine.
pub struct Store<C, H, L> {
    name: &'static str,
    cycle: usize,
    head: H,
    lent: L,
    last: u64,
    calls: PhantomData<C>,
}

impl<H, L, C: Calls<H, L>> Store<C, H, L> {
    /// Each register has its own key as value. A checkpoint is taken after so many transactions.
    fn new(name: &'static str, cycle: usize, lent: L) -> Self {
        let mut s = Store { name, cycle, head: C::empty(), lent, last: 0, calls: PhantomData };
        let keys: Vec<u32> = (1..=REGISTERS as u32).collect();
        for part in keys.chunks(KEYS) {
            let n = taken(C::begin(&mut s.head, &mut s.lent, s.last)) as u32;
            for &k in part {
                taken(C::assign(&mut s.head, &mut s.lent, n, k, k));
            }
            s.last += 1;
            taken(C::commit(&mut s.head, &mut s.lent, n, s.last));
        }
        s
    }
}

/// A journal store with its registers in the base. A checkpoint is taken when so many records are used.
pub fn journal<C: JournalCalls>(name: &'static str, records: usize) -> Store<C, JournalHead, JournalLent> {
    let mut s = Store::new(name, records / TRANSACTION_RECORDS, JournalLent::whole());
    s.checkpoint();
    s
}

/// A map store with one version of each register. A checkpoint is taken when so many versions are used.
pub fn map<C: MapCalls>(name: &'static str, versions: usize) -> Store<C, MapHead, MapLent> {
    Store::new(name, (versions - REGISTERS) / TRANSACTION_VERSIONS, MapLent::whole())
}

impl<H, L, C: Calls<H, L>> Engine for Store<C, H, L> {
    fn name(&self) -> &str {
        self.name
    }

    fn cycle(&self) -> Option<usize> {
        Some(self.cycle)
    }

    fn transact(&mut self, assign: (u32, u32), add: (u32, u32)) {
        let (h, l) = (&mut self.head, &mut self.lent);
        let n = taken(C::begin(h, l, self.last)) as u32;
        taken(C::assign(h, l, n, assign.0, assign.1));
        taken(C::add(h, l, n, add.0, add.1));
        self.last += 1;
        taken(C::commit(h, l, n, self.last));
    }

    fn checkpoint(&mut self) {
        taken(C::checkpoint(&mut self.head, &mut self.lent, self.last));
    }

    fn lookup(&mut self, k: u32) -> u32 {
        taken(C::lookup(&self.head, &self.lent, k, self.last)) as u32
    }

    fn list(&mut self, keys: &mut [u32], values: &mut [u32]) -> usize {
        taken(C::list(&self.head, &self.lent, self.last, keys, values)) as usize
    }
}
