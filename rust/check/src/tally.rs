//! Counts how often each call of each store gave each number, and which of section 6's were never seen.

use crate::demands::Checks;
use crate::sequences::run::Seen;
use crate::stores::call::{Call, Step, NAMES};
use registers::Answer;

const NUMBERS: usize = 14;

#[derive(Clone)]
pub struct Tally {
    journal: [[u64; NUMBERS]; 10],
    map: [[u64; NUMBERS]; 10],
    checks: Checks,
}

/// Section 6's order of tests of the journal store, call by call as in `NAMES`.
const OF_JOURNAL: [&[usize]; 10] = [
    &[0, 1, 4, 5, 6, 7, 12],
    &[0, 1, 2, 3],
    &[0, 1, 3, 4, 5],
    &[0, 1, 2, 3, 8, 12],
    &[0, 1, 2, 3, 8, 12],
    &[0, 1, 2, 12],
    &[0, 1, 2, 10, 11, 12],
    &[0, 1, 4, 5, 12],
    &[0, 1, 4, 5, 9, 12],
    &[0, 1, 13],
];

/// The same of the map store.
const OF_MAP: [&[usize]; 10] = [
    &[0, 1, 4, 5, 6, 7],
    &[0, 1, 2, 3],
    &[0, 1, 3, 4, 5],
    &[0, 1, 2, 3, 8],
    &[0, 1, 2, 3, 8],
    &[0, 1, 2],
    &[0, 1, 2, 10, 11, 12],
    &[0, 1, 4, 5, 12],
    &[0, 1, 4, 5, 9],
    &[],
];

fn count(table: &mut [[u64; NUMBERS]; 10], call: Call, answer: Option<Answer>) {
    if let Some(answer) = answer {
        table[call.place()][answer.number as usize] += 1;
    }
}

fn never_seen(table: &[[u64; NUMBERS]; 10], given: &[&[usize]; 10], store: &str) -> Vec<String> {
    let pairs = given.iter().enumerate().flat_map(|(call, numbers)| numbers.iter().map(move |&number| (call, number)));
    let missing = pairs.filter(|&(call, number)| table[call][number] == 0);
    missing.map(|(call, number)| format!("{store} {} {number}", NAMES[call])).collect()
}

fn print_table(table: &[[u64; NUMBERS]; 10], given: &[&[usize]; 10], store: &str) {
    println!("{store}: call, then number=times");
    for (call, numbers) in given.iter().enumerate().filter(|(_, numbers)| !numbers.is_empty()) {
        let cells: Vec<String> = numbers.iter().map(|&number| format!("{number}={}", table[call][number])).collect();
        println!("  {:<10} {}", NAMES[call], cells.join(" "));
    }
}

impl Default for Tally {
    fn default() -> Tally {
        Tally { journal: [[0; NUMBERS]; 10], map: [[0; NUMBERS]; 10], checks: Checks::default() }
    }
}

impl Tally {
    pub fn count(&mut self, step: Step, seen: Seen) {
        if let Step::Ask(_, call) = step {
            count(&mut self.journal, call, seen.journal);
            count(&mut self.map, call, seen.map);
        }
        self.checks.by_history += seen.checks.by_history;
        self.checks.between_stores += seen.checks.between_stores;
        self.checks.cuts += seen.checks.cuts;
        self.checks.ends += seen.checks.ends;
        self.checks.shared += seen.checks.shared;
    }

    pub fn calls(&self) -> u64 {
        self.journal.iter().chain(&self.map).flatten().sum()
    }

    pub fn print(&self) {
        print_table(&self.journal, &OF_JOURNAL, "journal store");
        print_table(&self.map, &OF_MAP, "map store");
        let Checks { by_history, between_stores, cuts, ends, shared } = self.checks;
        println!("values and lists compared with the history: {by_history}, between the stores: {between_stores}");
        println!("cuts that had to recover: {cuts}, ends that had to find a record: {ends}");
        println!("commits beside another adder of the same key: {shared}");
    }

    /// The numbers that section 6 gives to a call and that this run never saw; and two adders of one key.
    pub fn missing(&self) -> Vec<String> {
        let journal = never_seen(&self.journal, &OF_JOURNAL, "journal");
        let adders = (self.checks.shared == 0).then(|| String::from("two adders of one key"));
        journal.into_iter().chain(never_seen(&self.map, &OF_MAP, "map")).chain(adders).collect()
    }
}
