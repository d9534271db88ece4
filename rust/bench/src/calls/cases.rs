//! The calls that are timed, and what both stores' timings share.

use crate::report::Pair;
use crate::timing;
use registers::Answer;
use std::fmt::Debug;

/// A call that is timed.
#[derive(Clone, Copy, Debug)]
pub enum Case {
    Begin,
    Assign,
    Add,
    Read,
    Commit,
    CommitOld,
    CommitShared,
    Abort,
    Lookup,
    List,
    ListGapped,
    Checkpoint,
    CheckpointGapped,
    CheckpointHalf,
    Recover,
}

/// A call with its name in the tables.
pub type Named = (Case, &'static str);

/// The journal store's calls in the order of the tables. Recover is the last: the map store has all but that.
pub const JOURNAL: [Named; 15] = [
    (Case::Begin, "begin"),
    (Case::Assign, "update, assign"),
    (Case::Add, "update, add"),
    (Case::Read, "read"),
    (Case::Commit, "commit"),
    (Case::CommitOld, "commit, snapshot at low"),
    (Case::CommitShared, "commit, beside an adder"),
    (Case::Abort, "abort"),
    (Case::Lookup, "lookup at last"),
    (Case::List, "list at last"),
    (Case::ListGapped, "list, keys with gaps"),
    (Case::Checkpoint, "checkpoint at last"),
    (Case::CheckpointGapped, "checkpoint, with gaps"),
    (Case::CheckpointHalf, "checkpoint halfway"),
    (Case::Recover, "recover"),
];

/// The map store's calls.
pub fn map() -> &'static [Named] {
    &JOURNAL[..JOURNAL.len() - 1]
}

pub fn names(cases: &[Named]) -> Vec<&'static str> {
    cases.iter().map(|case| case.1).collect()
}

/// How many calls with different keys are compared before any is timed.
pub const COMPARED: usize = 4;
/// What an assign gives.
pub const ASSIGNED: u32 = 7;
/// How many copies of a store one sample of a checkpoint or recovery works on: many of an empty one, since reading the
/// clock takes longer than the call.
pub const COPIES_EMPTY: usize = 64;
pub const COPIES_FILLED: usize = 1;

/// What a call answers and leaves, which must be the same for both.
#[derive(PartialEq, Debug)]
pub struct Outcome<H, L> {
    pub answers: Vec<Answer>,
    pub head: H,
    pub lent: L,
}

/// Nanoseconds a call, and what it left.
pub type Timed<H, L> = (f64, Outcome<H, L>);

/// The rows of a list as if they were answers, so that they are compared too.
pub fn rows<'a>(keys: &'a [u32], values: &'a [u32]) -> impl Iterator<Item = Answer> + 'a {
    let rows = keys.iter().zip(values);
    rows.map(|(&key, &value)| Answer { number: 0, present: key, value: u64::from(value) })
}

/// The times of both, once they answered and left the same.
pub fn pair<T: PartialEq + Debug>(proved: (f64, T), plain: (f64, T), what: &str) -> Pair {
    assert_eq!(proved.1, plain.1, "library and plain Rust differ: {what}");
    Pair { proved: proved.0, plain: plain.0 }
}

/// The best times of some calls in several rounds.
pub fn best(cases: &[Named], one: impl Fn(Case, &str) -> Pair) -> Vec<Pair> {
    let round = || cases.iter().map(|&(case, name)| one(case, name)).collect::<Vec<Pair>>();
    let better = |a: Vec<Pair>, b: Vec<Pair>| a.into_iter().zip(b).map(|(a, b)| a.min(b)).collect();
    (1..timing::ROUNDS).map(|_| round()).fold(round(), better)
}
