//! Two writers, one counter (T-01), in the words of the request: poller and service port raise head 3's sample counter at
//! the same time, on both stores, across a checkpoint and a restart. What each call must answer is written out.

use crate::reference::record::SIZE;
use crate::sequences::run::Run;
use crate::stores::call::{Call, Start, Step, Target};
use crate::stores::cells::Room;
use crate::stores::differ::{same, Difference};
use registers::Answer;

/// Head 3's sample counter.
const COUNTER: u32 = 3 * 256 + 5;

const ROOM: Room = Room { base: [8; 2], journal: 40 * SIZE, versions: [16; 4], list: [8; 2] };

/// Both stores; each call is compared with the rule book and the history, and then held to the answer written here.
struct Stores(Run);

impl Stores {
    fn empty() -> Stores {
        Stores(Run::start(&Start::Empty { low: 0, floor: 1, junk: 1, capacity: ROOM }))
    }

    fn answer(&mut self, call: Call, number: u32, value: Option<u64>) -> Result<(), Difference> {
        let seen = self.0.step(Step::Ask(Target::Both, call))?;
        let answer = Answer { number, present: u32::from(value.is_some()), value: value.unwrap_or(0) };
        let (journal, map) = (Some(answer), if matches!(call, Call::Recover(_)) { None } else { Some(answer) });
        same(&format!("two writers, one counter: {call:?}"), &(journal, map), &(seen.journal, seen.map))
    }

    fn accept(&mut self, calls: &[Call]) -> Result<(), Difference> {
        calls.iter().try_for_each(|call| self.answer(*call, 0, None))
    }

    /// The counter is the only register.
    fn counts(&mut self, t: u64, value: u32) -> Result<(), Difference> {
        self.answer(Call::Lookup(COUNTER, t), 0, Some(value.into()))?;
        self.answer(Call::List(t), 0, Some(1))?;
        let (journal, map) = (&self.0.journal.library, &self.0.map.library);
        let row = |listed: &[u32], contents: &[u32]| (listed[0], contents[0]);
        let rows = (row(&journal.listed, &journal.contents), row(&map.listed, &map.contents));
        same("the counter's row in the lists", &((COUNTER, value), (COUNTER, value)), &rows)
    }

    /// Poller and port begin at t and raise the counter, the poller by 5 and 5, the port by 7; each reads its own alone.
    fn raise_beside(&mut self, t: u64, poller: u32, port: u32, before: u32) -> Result<(), Difference> {
        self.answer(Call::Begin(t), 0, Some(poller.into()))?;
        self.answer(Call::Begin(t), 0, Some(port.into()))?;
        self.accept(&[Call::Add(poller, COUNTER, 5), Call::Add(port, COUNTER, 7), Call::Add(poller, COUNTER, 5)])?;
        self.answer(Call::Read(poller, COUNTER), 0, Some(u64::from(before) + 10))?;
        self.answer(Call::Read(port, COUNTER), 0, Some(u64::from(before) + 7))
    }

    fn restart(&mut self) -> Result<(), Difference> {
        let survived = self.0.journal.library.head.used * SIZE;
        self.answer(Call::Recover(survived), 0, None)
    }
}

/// The numbers are given in the order of the begins: 1 makes the counter, 2 is the poller, 3 the port, 4 a third who
/// assigns; after the restart 5 is the poller and 6 the port. `swapped` commits the port first.
fn two_writers(swapped: bool) -> Result<(), Difference> {
    let mut stores = Stores::empty();
    let by = |first: u32, second: u32| if swapped { (second, first) } else { (first, second) };
    stores.answer(Call::Begin(0), 0, Some(1))?;
    stores.accept(&[Call::Assign(1, COUNTER, 100), Call::Commit(1, 1)])?;
    stores.raise_beside(1, 2, 3, 100)?;
    stores.answer(Call::Begin(1), 0, Some(4))?;
    stores.accept(&[Call::Assign(4, COUNTER, 0)])?;
    let ((first, second), raised) = (by(2, 3), if swapped { 107 } else { 110 });
    stores.accept(&[Call::Commit(first, 2), Call::Checkpoint(1)])?;
    stores.counts(2, raised)?;
    stores.accept(&[Call::Commit(second, 3)])?;
    stores.counts(3, 117)?;
    stores.answer(Call::Commit(4, 4), 11, None)?;
    stores.restart()?;
    stores.counts(2, raised)?;
    stores.counts(3, 117)?;
    stores.raise_beside(3, 5, 6, 117)?;
    let (first, second) = by(5, 6);
    stores.accept(&[Call::Commit(first, 4), Call::Commit(second, 5), Call::Checkpoint(5)])?;
    stores.counts(5, 134)
}

/// An assign in one of the two, before or behind its adds, is a conflict in either order of the commits.
fn one_assigns(swapped: bool, assigns_last: bool) -> Result<(), Difference> {
    let mut stores = Stores::empty();
    stores.answer(Call::Begin(0), 0, Some(1))?;
    stores.answer(Call::Begin(0), 0, Some(2))?;
    let mut poller = [Call::Add(1, COUNTER, 5), Call::Assign(1, COUNTER, 5)];
    if !assigns_last {
        poller.reverse();
    }
    stores.accept(&poller)?;
    stores.accept(&[Call::Add(2, COUNTER, 7)])?;
    let (first, second) = if swapped { (2, 1) } else { (1, 2) };
    stores.accept(&[Call::Commit(first, 1)])?;
    stores.answer(Call::Commit(second, 2), 11, None)?;
    stores.counts(
        1,
        match (swapped, assigns_last) {
            (true, _) => 7,
            (false, true) => 5,
            (false, false) => 10,
        },
    )
}

/// Both totals stand, whichever commits first.
pub fn agree() -> Result<(), Difference> {
    for swapped in [false, true] {
        two_writers(swapped)?;
        one_assigns(swapped, false)?;
        one_assigns(swapped, true)?;
    }
    Ok(())
}

#[test]
fn two_writers_raise_one_counter() {
    assert_eq!(agree(), Ok(()));
}
