//! Makes a failing case short: whatever can be left out, while something still differs, is left out.

mod rewrite;
mod simpler;

use crate::sequences::run::{failure_of, Run};
use crate::stores::call::{Call, Case, Start, Step};
use rewrite::{smaller_numbers, without_transaction};
use simpler::{simpler_starts, PARTS};
use std::time::{Duration, Instant};

/// Nothing more is tried after this time.
const PATIENCE: Duration = Duration::from_secs(60);

/// More steps than a reader follows.
const LONG: usize = 40;

fn fails(case: &Case) -> bool {
    failure_of(case).is_some()
}

/// Leaves out parts of one kind: halves of them first, single ones last, until none can go.
fn fewer(
    case: &mut Case,
    until: Instant,
    count: impl Fn(&Case) -> usize,
    without: impl Fn(&Case, usize, usize) -> Case,
) -> bool {
    let mut shorter = false;
    let mut total = count(case);
    let mut size = total.div_ceil(2);
    while size > 0 {
        let mut from = 0;
        while from < total && Instant::now() < until {
            let candidate = without(case, from, size.min(total - from));
            if fails(&candidate) {
                *case = candidate;
                total = count(case);
                shorter = true;
            } else {
                from += size;
            }
        }
        size /= 2;
    }
    shorter
}

fn fewer_steps(case: &mut Case, until: Instant) -> bool {
    let without = |case: &Case, from: usize, size: usize| {
        let mut candidate = case.clone();
        candidate.steps.drain(from..from + size);
        candidate
    };
    fewer(case, until, |case| case.steps.len(), without)
}

/// The begins that were accepted, with the numbers they gave, the latest first.
fn numbers_given(case: &Case) -> Vec<(usize, u32)> {
    let mut run = Run::start(&case.start);
    let mut given = Vec::new();
    for (place, step) in case.steps.iter().enumerate() {
        let Ok(seen) = run.step(*step) else { break };
        let answer = seen.journal.or(seen.map).filter(|answer| answer.number == 0);
        if let (Step::Ask(_, Call::Begin(_)), Some(answer)) = (step, answer) {
            given.push((place, answer.value as u32));
        }
    }
    given.reverse();
    given
}

/// Leaves out whole transactions; the numbers of later ones, times and cuts move down.
fn fewer_transactions(case: &mut Case, until: Instant, cuts_move: bool) -> bool {
    let without = |case: &Case, from: usize, size: usize| {
        let given = numbers_given(case);
        let chunk = given.iter().skip(from).take(size);
        chunk.fold(case.clone(), |rest, (place, n)| without_transaction(&rest, *place, *n, cuts_move))
    };
    fewer(case, until, |case| numbers_given(case).len(), without)
}

/// Leaves out records and rows of given cells.
fn fewer_cells(case: &mut Case, until: Instant) -> bool {
    let mut shorter = false;
    for part in PARTS {
        let without = |case: &Case, from: usize, size: usize| Case {
            start: (part.without)(&case.start, from, size),
            steps: case.steps.iter().map(|step| with_cut(*step, size * part.bytes)).collect(),
        };
        shorter |= fewer(case, until, |case| (part.count)(&case.start), without);
    }
    shorter
}

/// A recovery of fewer bytes.
fn with_cut(step: Step, fewer: usize) -> Step {
    match step {
        Step::Ask(target, Call::Recover(survived)) => Step::Ask(target, Call::Recover(survived.saturating_sub(fewer))),
        other => other,
    }
}

/// Takes the first of these cases that still fails.
fn take_failing(case: &mut Case, candidates: Vec<Case>, until: Instant) -> bool {
    let found = candidates.into_iter().find(|other| other != case && Instant::now() < until && fails(other));
    let simpler = found.is_some();
    found.into_iter().for_each(|candidate| *case = candidate);
    simpler
}

fn simpler_start(case: &mut Case, until: Instant) -> bool {
    let starts = simpler_starts(&case.start).into_iter();
    let candidates = starts.map(|start| Case { start, steps: case.steps.clone() }).collect();
    take_failing(case, candidates, until)
}

/// Ends the case at the step that differs.
fn cut_behind_failure(case: &mut Case) {
    if let Some((place, _)) = failure_of(case) {
        case.steps.truncate(place + 1);
    }
}

fn shorten(case: &mut Case, until: Instant) {
    cut_behind_failure(case);
    loop {
        let mut shorter = fewer_transactions(case, until, true);
        shorter |= fewer_transactions(case, until, false);
        shorter |= fewer_steps(case, until);
        shorter |= fewer_cells(case, until);
        while simpler_start(case, until) {
            shorter = true;
        }
        if !shorter {
            break;
        }
    }
    for place in 0..smaller_numbers(case).len() {
        let candidate = smaller_numbers(case).swap_remove(place);
        take_failing(case, vec![candidate], until);
    }
    cut_behind_failure(case);
}

/// The failing call alone, on the cells that it met.
fn last_call_alone(case: &Case) -> Option<Case> {
    let (last, before) = case.steps.split_last()?;
    let mut run = Run::start(&case.start);
    for step in before {
        run.step(*step).ok()?;
    }
    let start = Start::Given(Box::new((run.journal.reference, run.map.reference)));
    let alone = Case { start, steps: vec![Step::Lend(run.room), *last] };
    fails(&alone).then_some(alone)
}

/// A sequence that stays long gives way to its last call on given cells, where that alone differs.
pub fn shortest(mut case: Case) -> Case {
    shorten(&mut case, Instant::now() + PATIENCE);
    if case.steps.len() > LONG {
        if let Some(mut alone) = last_call_alone(&case) {
            shorten(&mut alone, Instant::now() + PATIENCE);
            return alone;
        }
    }
    case
}
