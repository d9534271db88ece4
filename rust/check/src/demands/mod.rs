//! What must hold over any sequence of calls from an empty start: the lists and values of each store are those of its
//! history; both stores answer alike as long as they took the same calls; a cut recovers; a transaction can be ended.

pub mod history;

use crate::reference::record::SIZE;
use crate::stores::call::Call;
use crate::stores::cells::{JournalCells, MapCells};
use crate::stores::differ::{same, Difference};
use history::History;
use registers::{Answer, JournalHead, MapHead};

/// How often something was compared beyond library and reference.
#[derive(Clone, Copy, Default, Debug)]
pub struct Checks {
    /// Lists, lookups and reads with the history.
    pub by_history: u64,
    /// Answers of both stores with each other.
    pub between_stores: u64,
    /// Cuts that had to recover.
    pub cuts: u64,
    /// Ends of transactions that had to find a record.
    pub ends: u64,
    /// Accepted commits of keys that a later commit than the snapshot wrote too: nothing but adds.
    pub shared: u64,
}

#[derive(Clone)]
pub struct Demands {
    /// `None` where the sequence has left what the demands speak of: a recovery of fewer bytes than the host must keep.
    pub journal: Option<History>,
    pub map: History,
    /// The records at the latest checkpoint, recovery or empty start: cuts are allowed from here on (section 5).
    pub mark: usize,
    /// Both stores accepted the same calls.
    pub together: bool,
    /// Both stores had the same low before the present call.
    same_low: bool,
    /// The same room was lent to every call.
    pub same_room: bool,
    /// The map's head when the journal had each of its lengths since the mark, while the map's rows stood still.
    map_heads: Option<Vec<MapHead>>,
    pub checks: Checks,
}

fn accepted(answer: Option<Answer>) -> bool {
    answer.is_some_and(|answer| answer.number == 0)
}

fn value_of(answer: Answer) -> Option<u32> {
    (answer.present == 1).then_some(answer.value as u32)
}

/// A listed answer's rows.
fn rows(count: u64, listed: &[u32], contents: &[u32]) -> Vec<(u32, u32)> {
    listed.iter().copied().zip(contents.iter().copied()).take(count as usize).collect()
}

/// A commit of a key that somebody else has changed meanwhile.
fn commits_shared(history: &History, call: Call) -> bool {
    matches!(call, Call::Commit(n, _) if history.shares_a_key(n))
}

/// Demands 2 and 3: an accepted call answers as the history does.
fn same_as_history(history: &mut History, call: Call, answer: Answer, list: &[(u32, u32)]) -> Result<(), Difference> {
    match call {
        Call::Read(n, k) => same("value read, by history", &history.read(n, k), &value_of(answer)),
        Call::Lookup(k, t) => same("value looked up, by history", &history.value_at(k, t), &value_of(answer)),
        Call::List(t) => {
            let expected: Vec<(u32, u32)> = history.list_at(t).into_iter().collect();
            same("list, by history", &expected.as_slice(), &list)
        }
        _ => same("history can take the accepted call", &true, &history.take(call, answer)),
    }
}

impl Demands {
    pub fn start(map_head: &MapHead) -> Demands {
        Demands {
            journal: Some(History::default()),
            map: History::default(),
            mark: 0,
            together: true,
            same_low: true,
            same_room: true,
            map_heads: Some(vec![*map_head]),
            checks: Checks::default(),
        }
    }

    /// The surviving counts from which recovery must be accepted.
    pub fn allowed_cuts(&self, head: &JournalHead) -> std::ops::RangeInclusive<usize> {
        self.mark * SIZE..=head.used * SIZE
    }

    /// After a call of the journal store; `before` is the head it had.
    pub fn journal_answered(
        &mut self,
        call: Call,
        answer: Answer,
        before: &JournalHead,
        cells: &JournalCells,
    ) -> Result<(), Difference> {
        let ends = matches!(call, Call::Abort(_) | Call::Commit(..));
        self.checks.ends += u64::from(ends && self.same_room);
        if ends && self.same_room && answer.number == 12 {
            return Err(Difference::new("3.11: with the same room an end finds a record", 0, 12));
        }
        if let Call::Recover(survived) = call {
            return self.recovered(survived, answer, before, cells);
        }
        if answer.number != 0 {
            return Ok(());
        }
        if let Some(history) = &mut self.journal {
            self.checks.shared += u64::from(commits_shared(history, call));
            let list = rows(answer.value, &cells.listed, &cells.contents);
            same_as_history(history, call, answer, &list)?;
            self.checks.by_history += u64::from(call.only_answers());
        }
        if matches!(call, Call::Checkpoint(_)) {
            self.mark_here(cells.head.used);
        }
        Ok(())
    }

    fn mark_here(&mut self, used: usize) {
        self.mark = used;
        self.journal.iter_mut().for_each(History::mark);
    }

    /// Section 5, the cut.
    fn recovered(
        &mut self,
        survived: usize,
        answer: Answer,
        before: &JournalHead,
        cells: &JournalCells,
    ) -> Result<(), Difference> {
        let allowed = self.journal.is_some() && self.allowed_cuts(before).contains(&survived);
        self.checks.cuts += u64::from(allowed);
        if allowed && answer.number != 0 && (self.same_room || answer.number != 1) {
            return Err(Difference::new("section 5: a cut behind the mark recovers", 0, answer.number));
        }
        if answer.number != 0 {
            return Ok(());
        }
        match &mut self.journal {
            Some(history) if allowed => history.restart(survived / SIZE - self.mark),
            _ => self.journal = None,
        }
        self.mark = cells.head.used;
        Ok(())
    }

    /// After a call of the map store.
    pub fn map_answered(&mut self, call: Call, answer: Answer, cells: &MapCells) -> Result<(), Difference> {
        if answer.number != 0 {
            return Ok(());
        }
        self.checks.shared += u64::from(commits_shared(&self.map, call));
        let list = rows(answer.value, &cells.listed, &cells.contents);
        same_as_history(&mut self.map, call, answer, &list)?;
        self.checks.by_history += u64::from(call.only_answers());
        if matches!(call, Call::Checkpoint(_)) {
            self.map_heads = None;
        }
        Ok(())
    }

    /// After both were asked, or one of them alone. Demand 3: as long as both took the same calls they answer alike.
    pub fn step_done(
        &mut self,
        call: Call,
        answers: (Option<Answer>, Option<Answer>),
        journal: &JournalCells,
        map: &MapCells,
    ) -> Result<(), Difference> {
        if let (Some(left), Some(right)) = answers {
            self.stores_alike(call, left, right, journal, map)?;
        }
        self.same_low = journal.head.low == map.head.low;
        let checkpoint = matches!(call, Call::Checkpoint(_));
        if !checkpoint && !call.only_answers() && accepted(answers.0) != accepted(answers.1) {
            self.together = false;
        }
        if accepted(answers.0) && !call.only_answers() {
            self.keep_map_head(checkpoint, &map.head);
        }
        Ok(())
    }

    /// Refusals 1 and 12 are a store's own; all else is the same as long as both took the same calls from one low on.
    fn stores_alike(
        &mut self,
        call: Call,
        left: Answer,
        right: Answer,
        journal: &JournalCells,
        map: &MapCells,
    ) -> Result<(), Difference> {
        let own_reason = |answer: Answer| answer.number == 1 || answer.number == 12;
        if !self.together || !self.same_low || own_reason(left) || own_reason(right) {
            return Ok(());
        }
        self.checks.between_stores += 1;
        same("both stores answer alike", &left, &right)?;
        if !matches!(call, Call::List(_)) || left.number != 0 {
            return Ok(());
        }
        let rows_of_journal = rows(left.value, &journal.listed, &journal.contents);
        let rows_of_map = rows(right.value, &map.listed, &map.contents);
        same("both stores list alike", &rows_of_journal, &rows_of_map)
    }

    /// After an accepted call that changed the journal.
    fn keep_map_head(&mut self, checkpoint: bool, head: &MapHead) {
        if checkpoint {
            self.map.mark();
            self.map_heads = Some(vec![*head]);
        } else if self.together {
            self.map_heads.iter_mut().for_each(|heads| heads.push(*head));
        }
    }

    /// A restart of both stores. The map has no recovery of its own: its head of that time comes back, with what then
    /// ran still to be aborted. `None` if that head is not known.
    pub fn restarted_map_head(&mut self, survived: usize, mark_before: usize) -> Option<MapHead> {
        let surviving = (survived / SIZE).checked_sub(mark_before)?;
        let head = *self.map_heads.as_ref()?.get(surviving)?;
        if !self.together || self.journal.is_none() {
            return None;
        }
        self.map.restart(surviving);
        Some(head)
    }

    /// After the map's transactions were aborted too, or where it could not follow.
    pub fn restart_done(&mut self, followed: bool, head: &MapHead) {
        self.together &= followed;
        self.map.mark();
        self.map_heads = Some(vec![*head]);
    }
}
