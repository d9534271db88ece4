//! Runs steps on library and reference side by side, and compares after every call.

use crate::demands::{Checks, Demands};
use crate::reference::map_rules::occupied_slots;
use crate::stores::ask;
use crate::stores::call::{Call, Case, Start, Step, Target};
use crate::stores::cells::{JournalCells, MapCells, Room};
use crate::stores::differ::{same, same_journal, same_map, Difference};
use registers::Answer;
use std::mem::take;

/// The cells that the library works on, and the reference's.
#[derive(Clone)]
pub struct Twin<C> {
    pub library: C,
    pub reference: C,
}

#[derive(Clone)]
pub struct Run {
    pub journal: Twin<JournalCells>,
    pub map: Twin<MapCells>,
    pub room: Room,
    pub demands: Option<Demands>,
    asked: bool,
}

/// What the stores answered to a step.
#[derive(Clone, Copy, Default)]
pub struct Seen {
    pub journal: Option<Answer>,
    pub map: Option<Answer>,
    pub checks: Checks,
}

fn refused_for_room(answer: Option<Answer>) -> bool {
    answer.is_some_and(|answer| answer.number == 1 || answer.number == 12)
}

/// Whether the map's transactions can be aborted in this room.
fn lends_whole_map(map: &MapCells, room: &Room) -> bool {
    let [keys, others @ ..] = room.versions;
    others == [keys; 3] && map.head.used <= keys
}

impl Run {
    pub fn start(start: &Start) -> Run {
        let (journal, map) = start.cells();
        let empty = matches!(start, Start::Empty { .. });
        Run {
            demands: empty.then(|| Demands::start(&map.head)),
            journal: Twin { library: journal.clone(), reference: journal },
            map: Twin { library: map.clone(), reference: map },
            room: start.room(),
            asked: false,
        }
    }

    pub fn step(&mut self, step: Step) -> Result<Seen, Difference> {
        match step {
            Step::Ask(target, call) => self.ask(target, call),
            Step::Lend(room) => {
                let same = room == self.room || !self.asked && room.base[0] == room.base[1];
                self.demands.iter_mut().for_each(|demands| demands.same_room &= same);
                self.room = room;
                Ok(Seen::default())
            }
        }
    }

    /// Where both are asked and the first refuses for its own room or columns, the second is not asked, so that both
    /// go on with the same calls. A commit asks the map first: with the same room the journal cannot refuse it then.
    fn ask(&mut self, target: Target, call: Call) -> Result<Seen, Difference> {
        self.asked = true;
        let mark = self.demands.as_ref().map_or(0, |demands| demands.mark);
        let mut seen = Seen::default();
        let map_first = matches!(call, Call::Commit(..));
        if target != Target::Journal && map_first {
            seen.map = self.ask_map(call)?;
        }
        if target != Target::Map && !refused_for_room(seen.map) {
            seen.journal = Some(self.ask_journal(call)?);
        }
        let go_on = !refused_for_room(seen.journal) || call.only_answers();
        if target != Target::Journal && !map_first && go_on {
            seen.map = self.ask_map(call)?;
        }
        match call {
            Call::Recover(survived) => self.restart_map(target, survived, mark, seen)?,
            _ => self.step_done(call, seen)?,
        }
        seen.checks = self.demands.as_mut().map_or(Checks::default(), |demands| take(&mut demands.checks));
        Ok(seen)
    }

    fn step_done(&mut self, call: Call, seen: Seen) -> Result<(), Difference> {
        let Some(demands) = &mut self.demands else { return Ok(()) };
        demands.step_done(call, (seen.journal, seen.map), &self.journal.reference, &self.map.reference)
    }

    fn ask_journal(&mut self, call: Call) -> Result<Answer, Difference> {
        let Twin { library, reference } = &mut self.journal;
        let before = reference.head;
        let got = ask::library_journal(call, library, &self.room);
        let expected = ask::reference_journal(call, reference, &self.room);
        same("answer of the journal store", &expected, &got)?;
        same_journal(reference, library)?;
        if let Some(demands) = &mut self.demands {
            demands.journal_answered(call, expected, &before, reference)?;
        }
        Ok(expected)
    }

    fn ask_map(&mut self, call: Call) -> Result<Option<Answer>, Difference> {
        let Twin { library, reference } = &mut self.map;
        let Some(got) = ask::library_map(call, library, &self.room) else { return Ok(None) };
        let Some(expected) = ask::reference_map(call, reference, &self.room) else { return Ok(None) };
        same("answer of the map store", &expected, &got)?;
        same_map(reference, library)?;
        if let Some(demands) = &mut self.demands {
            demands.map_answered(call, expected, reference)?;
        }
        Ok(Some(expected))
    }

    /// After an accepted recovery the map, if both were asked, goes back to the same call and aborts what then ran.
    fn restart_map(&mut self, target: Target, survived: usize, mark: usize, seen: Seen) -> Result<(), Difference> {
        let Some(demands) = &mut self.demands else { return Ok(()) };
        if seen.journal.is_none_or(|answer| answer.number != 0) {
            return Ok(());
        }
        let follows = target == Target::Both && lends_whole_map(&self.map.reference, &self.room);
        let head = if follows { demands.restarted_map_head(survived, mark) } else { None };
        if let Some(head) = head {
            self.map.library.head = head;
            self.map.reference.head = head;
            let ran: Vec<u32> = occupied_slots(&head).map(|slot| slot.number).collect();
            self.abort_in_map(&ran)?;
        }
        let map_head = self.map.reference.head;
        self.demands.iter_mut().for_each(|demands| demands.restart_done(head.is_some(), &map_head));
        Ok(())
    }

    /// The history has ended these already, so the calls are compared alone.
    fn abort_in_map(&mut self, numbers: &[u32]) -> Result<(), Difference> {
        let demands = self.demands.take();
        for &number in numbers {
            self.ask_map(Call::Abort(number))?;
        }
        self.demands = demands;
        Ok(())
    }
}

/// Runs a case. The place of the step at which something differs, and what.
pub fn failure_of(case: &Case) -> Option<(usize, Difference)> {
    let mut run = Run::start(&case.start);
    for (place, step) in case.steps.iter().enumerate() {
        if let Err(difference) = run.step(*step) {
            return Some((place, difference));
        }
    }
    None
}
