//! The register workload: 512 registers, transactions of two updates, newest lookups, full listings, and a checkpoint
//! whenever a store is full.

pub mod engine;
#[cfg(feature = "lmdb")]
pub mod lmdb;
#[cfg(feature = "sqlite")]
pub mod sqlite;
pub mod store;

use crate::calls::fixture::{register, RAISE};
use crate::report::table::{figure, ratio, Table};
use crate::report::NS_A_MICROSECOND;
use crate::timing::Watch;
use engine::{Engine, REGISTERS};
use std::time::{Duration, Instant};

/// In how many passes all stores are timed, one after the other, so that a busy spell of the machine does not meet all
/// of one store.
const PASSES: usize = 4;
/// How often a store is filled in a pass at the least. Of each round the best time counts, and the average is taken
/// over those.
const CYCLES: usize = 3;
/// How often a store is filled at the least.
pub const TIMES: usize = PASSES * CYCLES;
/// A quick store is filled again and again for this long in a pass.
const BUDGET: Duration = Duration::from_millis(250);
/// How many transactions count as filling where there is nothing to fill.
const TRANSACTIONS: usize = 1024;
/// Lookups and a listing come after so many transactions; it divides the transactions between two checkpoints.
const ROUND: usize = 32;
/// How many lookups there are in a round.
const LOOKUPS: usize = 256;

/// Microseconds a transaction, a lookup, a listing and a checkpoint.
#[derive(Clone, Copy)]
struct Times {
    transaction: f64,
    lookup: f64,
    list: f64,
    checkpoint: Option<f64>,
}

/// The best times of one round of a cycle.
#[derive(Clone, Copy)]
struct Round {
    transactions: Duration,
    lookups: Duration,
    list: Duration,
    checkpoint: Duration,
}

impl Round {
    fn min(self, other: Round) -> Round {
        Round {
            transactions: self.transactions.min(other.transactions),
            lookups: self.lookups.min(other.lookups),
            list: self.list.min(other.list),
            checkpoint: self.checkpoint.min(other.checkpoint),
        }
    }
}

/// A run of the workload on an engine: what was done so far, what the registers hold by then, and the best time of each
/// round between two checkpoints.
struct Run {
    engine: Box<dyn Engine>,
    done: usize,
    expected: Vec<u32>,
    best: Vec<Round>,
}

impl Run {
    fn new(engine: Box<dyn Engine>) -> Self {
        let rounds = engine.cycle().unwrap_or(TRANSACTIONS) / ROUND;
        let worst = Duration::MAX;
        let none = Round { transactions: worst, lookups: worst, list: worst, checkpoint: worst };
        Run { engine, done: 0, expected: (1..=REGISTERS as u32).collect(), best: vec![none; rounds] }
    }

    /// The two registers that a transaction updates.
    fn pair(i: usize) -> (u32, u32) {
        (register(2 * i, REGISTERS), register(2 * i + 1, REGISTERS))
    }

    fn transact(&mut self) -> Duration {
        let started = Watch::start();
        for i in self.done..self.done + ROUND {
            let (k, other) = Self::pair(i);
            self.engine.transact((k, i as u32), (other, RAISE));
        }
        let took = started.elapsed();
        for i in self.done..self.done + ROUND {
            let (k, other) = Self::pair(i);
            self.expected[k as usize - 1] = i as u32;
            self.expected[other as usize - 1] += RAISE;
        }
        self.done += ROUND;
        took
    }

    /// The checkpoint that a full store asks for.
    fn checkpoint(&mut self) -> Duration {
        if !self.engine.cycle().is_some_and(|cycle| self.done.is_multiple_of(cycle)) {
            return Duration::ZERO;
        }
        let started = Watch::start();
        self.engine.checkpoint();
        started.elapsed()
    }

    /// The lookups of a round, compared with what the registers hold.
    fn look_up(&mut self) -> Duration {
        let mut got = [0; LOOKUPS];
        let started = Watch::start();
        for (i, value) in got.iter_mut().enumerate() {
            *value = self.engine.lookup(register(i, REGISTERS));
        }
        let took = started.elapsed();
        for (i, value) in got.into_iter().enumerate() {
            let k = register(i, REGISTERS);
            assert_eq!(value, self.expected[k as usize - 1], "{}: lookup of {k}", self.engine.name());
        }
        took
    }

    /// The listing of a round, compared as well.
    fn list(&mut self) -> Duration {
        let (mut keys, mut values) = ([0; REGISTERS], [0; REGISTERS]);
        let started = Watch::start();
        let rows = self.engine.list(&mut keys, &mut values);
        let took = started.elapsed();
        let rising = keys.iter().copied().eq(1..=REGISTERS as u32);
        assert!(rows == REGISTERS && rising && values[..] == self.expected[..], "{}: the listing", self.engine.name());
        took
    }

    fn round(&mut self) -> Round {
        let (transactions, checkpoint) = (self.transact(), self.checkpoint());
        Round { transactions, checkpoint, lookups: self.look_up(), list: self.list() }
    }

    /// Fills the store several times, each time with the same work in each round.
    fn pass(&mut self) {
        let started = Instant::now();
        let mut cycles = 0;
        while cycles < CYCLES || started.elapsed() < BUDGET {
            for i in 0..self.best.len() {
                self.best[i] = self.best[i].min(self.round());
            }
            cycles += 1;
        }
    }

    /// Averages over the rounds. The checkpoint counts with the transactions, and apart.
    fn averages(&self) -> Times {
        let rounds = self.best.len();
        let mean = |part: fn(&Round) -> Duration, count: usize| {
            let sum: Duration = self.best.iter().map(part).sum();
            sum.as_nanos() as f64 / count as f64 / NS_A_MICROSECOND
        };
        Times {
            transaction: mean(|r| r.transactions + r.checkpoint, rounds * ROUND),
            lookup: mean(|r| r.lookups, rounds * LOOKUPS),
            list: mean(|r| r.list, rounds),
            checkpoint: self.engine.cycle().map(|_| mean(|r| r.checkpoint, 1)),
        }
    }
}

/// The line of an engine; the ratios are against the engine of the first line.
fn line(name: &str, t: Times, first: Times) -> Vec<String> {
    let checkpoint = t.checkpoint.map_or("none".to_string(), figure);
    let against = t.checkpoint.zip(first.checkpoint).map_or(String::new(), |(a, b)| ratio(a, b));
    vec![
        name.to_string(),
        figure(t.transaction),
        ratio(t.transaction, first.transaction),
        figure(t.lookup),
        ratio(t.lookup, first.lookup),
        figure(t.list),
        ratio(t.list, first.list),
        checkpoint,
        against,
    ]
}

/// Runs the workload on the engines and prints their table.
pub fn print(engines: Vec<Box<dyn Engine>>) {
    let mut runs: Vec<Run> = engines.into_iter().map(Run::new).collect();
    for _ in 0..PASSES {
        runs.iter_mut().for_each(Run::pass);
    }
    let mut table = Table::new(&[
        "microseconds",
        "transaction",
        "ratio",
        "lookup",
        "ratio",
        "listing",
        "ratio",
        "checkpoint",
        "ratio",
    ]);
    let first = runs[0].averages();
    runs.iter().for_each(|run| table.row(line(run.engine.name(), run.averages(), first)));
    table.print();
}
