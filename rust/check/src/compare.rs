//! The whole comparison: sequences from empty stores, sequences at the limits, damaged stores.

use crate::counter;
use crate::damage::{damaged_case, Pool};
use crate::figures;
use crate::random::Random;
use crate::reference::{RECORDS, VERSIONS};
use crate::script::write::script_of;
use crate::sequences::choose::{closing_steps, next_step};
use crate::sequences::plan::{full_plan, random_plan, Plan, AT_LIMITS};
use crate::sequences::run::{failure_of, Run};
use crate::shrink::shortest;
use crate::stores::call::{Case, Step};
use crate::stores::differ::Difference;
use crate::tally::Tally;
use std::time::Instant;

/// Stores filled to the limits, and how many sequences go on from each, with the default number of sequences.
const FULL_STORES: u64 = 10;
const FROM_EACH: u64 = 40;

struct Comparison {
    random: Random,
    tally: Tally,
    pool: Pool,
    sequences: u64,
    started: Instant,
}

/// A difference, with the case that shows it.
type Checked<T> = Result<T, Box<Case>>;

/// A sequence under way: what was done so far can be run again.
#[derive(Clone)]
struct Sequence {
    run: Run,
    case: Case,
}

impl Sequence {
    fn start(plan: &Plan) -> Sequence {
        let case = Case { start: plan.start.clone(), steps: Vec::new() };
        Sequence { run: Run::start(&plan.start), case }
    }

    fn step(&mut self, step: Step, tally: &mut Tally) -> Checked<()> {
        self.case.steps.push(step);
        match self.run.step(step) {
            Ok(seen) => {
                tally.count(step, seen);
                Ok(())
            }
            Err(_) => Err(Box::new(self.case.clone())),
        }
    }
}

/// So near to the limit of section 2 that a few more calls reach it.
fn nearly_full(run: &Run, versions: bool) -> bool {
    if versions {
        return run.map.reference.head.used >= VERSIONS - 30;
    }
    run.journal.reference.head.used >= RECORDS - 12
}

impl Comparison {
    fn steps(&mut self, sequence: &mut Sequence, plan: &Plan) -> Checked<()> {
        for _ in 0..plan.steps {
            if plan.filling && nearly_full(&sequence.run, plan.versions_pile_up) {
                break;
            }
            let step = next_step(&mut self.random, plan, &sequence.run);
            sequence.step(step, &mut self.tally)?;
        }
        Ok(())
    }

    /// The lists at the end of a sequence.
    fn close(&mut self, sequence: &mut Sequence) -> Checked<()> {
        self.sequences += 1;
        for step in closing_steps(&mut self.random, &sequence.run) {
            sequence.step(step, &mut self.tally)?;
        }
        Ok(())
    }

    fn small_sequence(&mut self) -> Checked<()> {
        let plan = random_plan(&mut self.random);
        let mut sequence = Sequence::start(&plan);
        self.steps(&mut sequence, &plan)?;
        if self.random.once_in(20) {
            let run = &sequence.run;
            self.pool.offer(&mut self.random, &run.journal.reference, &run.map.reference);
        }
        self.close(&mut sequence)
    }

    /// Fills one store to the limits, then goes on from there several times.
    fn full_sequences(&mut self, times: u64) -> Checked<()> {
        let filling = full_plan(&mut self.random);
        let mut full = Sequence::start(&filling);
        self.steps(&mut full, &filling)?;
        let plan = Plan { weights: AT_LIMITS, steps: 60, filling: false, ..filling };
        for time in 0..times {
            let mut sequence = full.clone();
            let versions_pile_up = plan.versions_pile_up && time % 3 == 0;
            let plan = Plan { rooms_change: time % 4 == 3, versions_pile_up, ..plan.clone() };
            self.steps(&mut sequence, &plan)?;
            self.close(&mut sequence)?;
        }
        Ok(())
    }

    fn sequences(&mut self, wanted: u64) -> Checked<()> {
        let full_stores = FULL_STORES.min(wanted / (2 * FROM_EACH));
        for done in 1..=wanted - full_stores * FROM_EACH {
            self.small_sequence()?;
            if done % 50_000 == 0 {
                self.progress(&format!("{done} sequences on small rooms"));
            }
        }
        for store in 1..=full_stores {
            self.full_sequences(FROM_EACH)?;
            self.progress(&format!("{} sequences at the limits", store * FROM_EACH));
        }
        Ok(())
    }

    fn damaged_calls(&mut self, wanted: u64) -> Checked<()> {
        let (mut done, mut told) = (0, 0);
        while done < wanted {
            let case = damaged_case(&mut self.random, &self.pool);
            let mut run = Run::start(&case.start);
            for step in &case.steps {
                match run.step(*step) {
                    Ok(seen) => self.tally.count(*step, seen),
                    Err(_) => return Err(Box::new(case)),
                }
                done += u64::from(matches!(step, Step::Ask(..)));
            }
            if done / 1_000_000 > told {
                told = done / 1_000_000;
                self.progress(&format!("{done} calls on damaged stores"));
            }
        }
        Ok(())
    }

    fn progress(&self, what: &str) {
        println!("{:>5.1} s  {what}", self.started.elapsed().as_secs_f64());
    }
}

/// The script of a difference, made short, and what differs.
fn print_failure(case: Case) {
    println!("library and rule book differ; making the case short ...");
    let case = shortest(case);
    println!("# ---- script: rust/check/run --replay FILE runs it again ----");
    print!("{}", script_of(&case));
    println!("# ---- end of the script ----");
    if let Some((_, difference)) = failure_of(&case) {
        println!("at the last line: {}", difference.what);
        println!("expected {}", difference.expected);
        println!("got      {}", difference.got);
    }
}

/// True if everything agreed and every number of section 6 was seen.
pub fn compare(seed: u64, sequences: u64, damaged: u64) -> bool {
    println!("seed {seed}, {sequences} sequences, {damaged} calls on damaged stores");
    if let Err(Difference { what, expected, got }) = figures::agree().and_then(|()| counter::agree()) {
        println!("{what}: expected {expected}, got {got}");
        return false;
    }
    let (random, tally, pool) = (Random::new(seed), Tally::default(), Pool::default());
    let mut comparison = Comparison { random, tally, pool, sequences: 0, started: Instant::now() };
    let checked = comparison.sequences(sequences).and_then(|()| comparison.damaged_calls(damaged));
    if let Err(case) = checked {
        let (calls, sequences) = (comparison.tally.calls(), comparison.sequences);
        comparison.progress(&format!("a difference after {sequences} sequences, {calls} calls"));
        print_failure(*case);
        return false;
    }
    comparison.tally.print();
    let missing = comparison.tally.missing();
    println!(
        "{} calls compared in {:.0} s, seed {seed}",
        comparison.tally.calls(),
        comparison.started.elapsed().as_secs_f64()
    );
    if !missing.is_empty() {
        println!("never seen in this run, so it shows too little: {}", missing.join(", "));
    }
    missing.is_empty()
}
