//! Rewrites the calls of a sequence as a whole, so that less is left of it: transactions taken out, keys and times small.

use crate::stores::call::{Call, Case, Start, Step};
use std::collections::BTreeSet;

/// The call with its transaction number, key and time replaced.
fn mapped(call: Call, n: impl Fn(u32) -> u32, k: impl Fn(u32) -> u32, t: impl Fn(u64) -> u64) -> Call {
    match call {
        Call::Begin(time) => Call::Begin(t(time)),
        Call::Read(number, key) => Call::Read(n(number), k(key)),
        Call::Lookup(key, time) => Call::Lookup(k(key), t(time)),
        Call::Assign(number, key, value) => Call::Assign(n(number), k(key), value),
        Call::Add(number, key, d) => Call::Add(n(number), k(key), d),
        Call::Abort(number) => Call::Abort(n(number)),
        Call::Commit(number, time) => Call::Commit(n(number), t(time)),
        Call::List(time) => Call::List(t(time)),
        Call::Checkpoint(time) => Call::Checkpoint(t(time)),
        Call::Recover(_) => call,
    }
}

fn number_of(call: Call) -> Option<u32> {
    match call {
        Call::Read(n, _) | Call::Assign(n, ..) | Call::Add(n, ..) | Call::Abort(n) | Call::Commit(n, _) => Some(n),
        _ => None,
    }
}

fn key_of(call: Call) -> Option<u32> {
    match call {
        Call::Read(_, k) | Call::Lookup(k, _) | Call::Assign(_, k, _) | Call::Add(_, k, _) => Some(k),
        _ => None,
    }
}

fn time_of(call: Call) -> Option<u64> {
    match call {
        Call::Begin(t) | Call::Lookup(_, t) | Call::Commit(_, t) | Call::List(t) | Call::Checkpoint(t) => Some(t),
        _ => None,
    }
}

fn calls(case: &Case) -> impl Iterator<Item = Call> + '_ {
    case.steps.iter().filter_map(|step| match step {
        Step::Ask(_, call) => Some(*call),
        Step::Lend(_) => None,
    })
}

fn with_calls(case: &Case, change: impl Fn(Call) -> Call) -> Case {
    let changed = |step: &Step| match step {
        Step::Ask(target, call) => Step::Ask(*target, change(*call)),
        Step::Lend(room) => Step::Lend(*room),
    };
    Case { start: case.start.clone(), steps: case.steps.iter().map(changed).collect() }
}

/// Takes the begin at `place`, which gave number `n`, out of the case, and every call of that transaction. Later
/// numbers, and times from its commit on, move down; cuts by the records that are gone, if `cuts_move`.
pub fn without_transaction(case: &Case, place: usize, n: u32, cuts_move: bool) -> Case {
    let mut gone = 0;
    let mut steps = Vec::new();
    for (at, step) in case.steps.iter().enumerate() {
        match step {
            Step::Ask(_, call) if at == place || number_of(*call) == Some(n) => {
                gone += usize::from(at == place || !call.only_answers());
            }
            Step::Ask(target, Call::Recover(survived)) if cuts_move => {
                steps.push(Step::Ask(*target, Call::Recover(survived.saturating_sub(gone * 24))));
            }
            _ => steps.push(*step),
        }
    }
    let (from, by) = freed_times(case, n);
    let shorter = Case { start: case.start.clone(), steps };
    let down = |number: u32| if number > n { number - 1 } else { number };
    with_calls(&shorter, |call| mapped(call, down, |k| k, |t| if t >= from { t - by } else { t }))
}

/// The commit time of n, and how far it lies behind the commit before it.
fn freed_times(case: &Case, n: u32) -> (u64, u64) {
    let times = |of_n: bool| {
        let commits = calls(case).filter(move |call| matches!(call, Call::Commit(m, _) if (*m == n) == of_n));
        commits.filter_map(time_of)
    };
    let Some(from) = times(true).min() else { return (u64::MAX, 0) };
    let low = match case.start {
        Start::Empty { low, .. } => low,
        Start::Given(_) => 0,
    };
    let before = times(false).filter(|&t| t < from).chain([low.min(from)]).max().unwrap_or(0);
    (from, from - before)
}

/// Keys become 1, 2, 3 in their order; 0 stays.
fn with_small_keys(case: &Case) -> Case {
    let keys: Vec<u32> =
        calls(case).filter_map(key_of).filter(|&k| k > 0).collect::<BTreeSet<_>>().into_iter().collect();
    let small = |k: u32| keys.binary_search(&k).map_or(0, |place| place as u32 + 1);
    with_calls(case, |call| mapped(call, |n| n, small, |t| t))
}

/// Times become 0, 1, 2 in their order.
fn with_small_times(case: &Case) -> Case {
    let times: Vec<u64> = calls(case).filter_map(time_of).chain([0]).collect::<BTreeSet<_>>().into_iter().collect();
    let small = |t: u64| times.binary_search(&t).map_or(0, |place| place as u64);
    with_calls(case, |call| mapped(call, |n| n, |k| k, small))
}

/// Every value becomes 1.
fn with_plain_values(case: &Case) -> Case {
    with_calls(case, |call| match call {
        Call::Assign(n, k, _) => Call::Assign(n, k, 1),
        Call::Add(n, k, _) => Call::Add(n, k, 1),
        other => other,
    })
}

/// The same case with smaller numbers; only for sequences from an empty start.
pub fn smaller_numbers(case: &Case) -> Vec<Case> {
    match case.start {
        Start::Empty { .. } => vec![with_small_keys(case), with_small_times(case), with_plain_values(case)],
        Start::Given(_) => Vec::new(),
    }
}
