//! The history of a store as its caller knows it: what was committed, and what runs. It is never shortened by a
//! checkpoint, and knows nothing of journals, bases and versions. A restart forgets the calls whose records are lost.

use crate::stores::call::Call;
use registers::Answer;
use std::collections::BTreeMap;

#[derive(Clone, Copy, Debug)]
enum Effect {
    Assign(u32),
    Add(u32),
}

#[derive(Clone, Debug)]
struct Transaction {
    number: u32,
    snapshot: u64,
    updates: Vec<(u32, Effect)>,
}

impl Transaction {
    fn wrote(&self, k: u32) -> bool {
        self.updates.iter().any(|(key, _)| *key == k)
    }

    fn assigned(&self, k: u32) -> bool {
        self.updates.iter().any(|(key, effect)| *key == k && matches!(effect, Effect::Assign(_)))
    }
}

/// What has to be undone to forget a call.
#[derive(Clone, Debug)]
enum Event {
    Begun(u32),
    Updated(u32),
    Committed,
    Aborted(Transaction),
}

#[derive(Clone, Debug, Default)]
pub struct History {
    committed: Vec<(u64, Transaction)>,
    running: Vec<Transaction>,
    /// The accepted calls since the latest checkpoint, recovery or empty start.
    since: Vec<Event>,
}

fn after(effect: Effect, old: Option<u32>) -> u32 {
    match effect {
        Effect::Assign(value) => value,
        Effect::Add(d) => old.unwrap_or(0).wrapping_add(d),
    }
}

impl History {
    pub fn running_numbers(&self) -> impl Iterator<Item = u32> + '_ {
        self.running.iter().map(|transaction| transaction.number)
    }

    pub fn running_snapshots(&self) -> impl Iterator<Item = u64> + '_ {
        self.running.iter().map(|transaction| transaction.snapshot)
    }

    /// The time of the latest commit, 0 where there is none.
    pub fn last(&self) -> u64 {
        self.committed.last().map_or(0, |(time, _)| *time)
    }

    fn place(&self, n: u32) -> Option<usize> {
        self.running.iter().position(|transaction| transaction.number == n)
    }

    /// Takes an accepted call. False if nobody can accept it: the transaction does not run.
    #[must_use]
    pub fn take(&mut self, call: Call, answer: Answer) -> bool {
        match call {
            Call::Begin(snapshot) => self.begin(answer.value as u32, snapshot),
            Call::Assign(n, k, v) => self.update(n, k, Effect::Assign(v)),
            Call::Add(n, k, d) => self.update(n, k, Effect::Add(d)),
            Call::Commit(n, t) => self.commit(n, t),
            Call::Abort(n) => self.abort(n),
            _ => true,
        }
    }

    fn begin(&mut self, number: u32, snapshot: u64) -> bool {
        let new = self.place(number).is_none();
        self.running.push(Transaction { number, snapshot, updates: Vec::new() });
        self.since.push(Event::Begun(number));
        new
    }

    fn update(&mut self, n: u32, k: u32, effect: Effect) -> bool {
        let Some(place) = self.place(n) else { return false };
        self.running[place].updates.push((k, effect));
        self.since.push(Event::Updated(n));
        true
    }

    /// Whether a later commit than the transaction's snapshot changed a key that it changed, and how.
    fn met_later(&self, transaction: &Transaction, how: impl Fn(&Transaction, &Transaction, u32) -> bool) -> bool {
        let mut later = self.committed.iter().rev().take_while(|(time, _)| *time > transaction.snapshot);
        let meets = |other: &Transaction, k: u32| other.wrote(k) && how(transaction, other, k);
        later.any(|(_, other)| transaction.updates.iter().any(|(k, _)| meets(other, *k)))
    }

    /// A running transaction that changed what a later commit than its snapshot changed too.
    pub fn shares_a_key(&self, n: u32) -> bool {
        self.place(n).is_some_and(|place| self.met_later(&self.running[place], |_, _, _| true))
    }

    /// Nobody may commit over a later change of the same key: the history would not be one of either order. Adds alone
    /// come to the same in either order.
    fn commit(&mut self, n: u32, t: u64) -> bool {
        let Some(place) = self.place(n) else { return false };
        let transaction = self.running.remove(place);
        let conflict = self.met_later(&transaction, |one, other, k| one.assigned(k) || other.assigned(k));
        let rises = self.committed.last().is_none_or(|(time, _)| *time < t);
        self.committed.push((t, transaction));
        self.since.push(Event::Committed);
        rises && !conflict
    }

    fn abort(&mut self, n: u32) -> bool {
        let Some(place) = self.place(n) else { return false };
        let transaction = self.running.remove(place);
        self.since.push(Event::Aborted(transaction));
        true
    }

    /// Cuts are counted from here on.
    pub fn mark(&mut self) {
        self.since.clear();
    }

    /// A restart of which the first `surviving` calls since the mark survive: the others are forgotten, then what runs
    /// is aborted.
    pub fn restart(&mut self, surviving: usize) {
        while self.since.len() > surviving {
            self.forget_latest();
        }
        self.running.clear();
        self.mark();
    }

    fn forget_latest(&mut self) {
        match self.since.pop() {
            Some(Event::Begun(n)) => self.running.retain(|transaction| transaction.number != n),
            Some(Event::Updated(n)) => {
                let updated = self.running.iter_mut().find(|transaction| transaction.number == n);
                updated.map(|transaction| transaction.updates.pop());
            }
            Some(Event::Committed) => {
                let latest = self.committed.pop();
                self.running.extend(latest.map(|(_, transaction)| transaction));
            }
            Some(Event::Aborted(transaction)) => self.running.push(transaction),
            None => {}
        }
    }

    /// Every key that has a value at t, with it: the committed transactions one after the other.
    pub fn list_at(&self, t: u64) -> BTreeMap<u32, u32> {
        let mut rows = BTreeMap::new();
        for (_, transaction) in self.committed.iter().take_while(|(time, _)| *time <= t) {
            for &(k, effect) in &transaction.updates {
                let value = after(effect, rows.get(&k).copied());
                rows.insert(k, value);
            }
        }
        rows
    }

    pub fn value_at(&self, k: u32, t: u64) -> Option<u32> {
        let before = self.committed.iter().take_while(|(time, _)| *time <= t);
        let updates = before.flat_map(|(_, transaction)| &transaction.updates);
        updates.filter(|(key, _)| *key == k).fold(None, |old, (_, effect)| Some(after(*effect, old)))
    }

    /// What a running transaction reads.
    pub fn read(&self, n: u32, k: u32) -> Option<u32> {
        let transaction = &self.running[self.place(n)?];
        let own = transaction.updates.iter().filter(|(key, _)| *key == k);
        own.fold(self.value_at(k, transaction.snapshot), |old, (_, effect)| Some(after(*effect, old)))
    }
}
