//! The calls of both stores as values, the steps of a sequence, and where a sequence starts.

use crate::random::Random;
use crate::stores::cells::{JournalCells, MapCells, Room};

#[derive(Clone, Copy, PartialEq, Eq, Debug)]
pub enum Call {
    Begin(u64),
    Read(u32, u32),
    Lookup(u32, u64),
    Assign(u32, u32, u32),
    Add(u32, u32, u32),
    Abort(u32),
    Commit(u32, u64),
    List(u64),
    Checkpoint(u64),
    /// The count of bytes that survived. The map store has no such call.
    Recover(usize),
}

/// The calls' names, in the order of section 6.
pub const NAMES: [&str; 10] =
    ["begin", "read", "lookup", "assign", "add", "abort", "commit", "list", "checkpoint", "recover"];

impl Call {
    /// The place of its name in `NAMES`.
    pub fn place(&self) -> usize {
        match self {
            Call::Begin(..) => 0,
            Call::Read(..) => 1,
            Call::Lookup(..) => 2,
            Call::Assign(..) => 3,
            Call::Add(..) => 4,
            Call::Abort(..) => 5,
            Call::Commit(..) => 6,
            Call::List(..) => 7,
            Call::Checkpoint(..) => 8,
            Call::Recover(..) => 9,
        }
    }

    /// Whether an accepted call leaves the store as it was.
    pub fn only_answers(&self) -> bool {
        matches!(self, Call::Read(..) | Call::Lookup(..) | Call::List(..))
    }
}

#[derive(Clone, Copy, PartialEq, Eq, Debug)]
pub enum Target {
    Journal,
    Map,
    Both,
}

#[derive(Clone, Copy, PartialEq, Eq, Debug)]
pub enum Step {
    /// The room lent from here on.
    Lend(Room),
    Ask(Target, Call),
}

/// The cells that a sequence starts with.
#[derive(Clone, PartialEq, Eq, Debug)]
pub enum Start {
    /// Both stores empty, with this low and floor, and junk in every cell.
    Empty { low: u64, floor: u32, junk: u64, capacity: Room },
    /// Any cells. The demands over sequences are not for these.
    Given(Box<(JournalCells, MapCells)>),
}

#[derive(Clone, PartialEq, Eq, Debug)]
pub struct Case {
    pub start: Start,
    pub steps: Vec<Step>,
}

impl Start {
    pub fn cells(&self) -> (JournalCells, MapCells) {
        match self {
            Start::Empty { low, floor, junk, capacity } => {
                let random = &mut Random::new(*junk);
                let journal = JournalCells::empty(*low, *floor, *capacity, random);
                (journal, MapCells::empty(*low, *floor, *capacity, random))
            }
            Start::Given(cells) => (cells.0.clone(), cells.1.clone()),
        }
    }

    /// What is lent until a step lends something else: all but the margin, or all of given cells.
    pub fn room(&self) -> Room {
        match self {
            Start::Empty { capacity, .. } => *capacity,
            Start::Given(cells) => whole_room(&cells.0, &cells.1),
        }
    }
}

fn whole_room(journal: &JournalCells, map: &MapCells) -> Room {
    Room {
        base: [journal.keys.len(), journal.values.len()],
        journal: journal.bytes.len(),
        versions: [map.keys.len(), map.times.len(), map.values.len(), map.marks.len()],
        list: [journal.listed.len().max(map.listed.len()), journal.contents.len().max(map.contents.len())],
    }
}
