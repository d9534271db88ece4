//! Stores that no calls reach, and the calls made on them.

mod journal;
mod map;
mod small;

use crate::random::Random;
use crate::stores::call::{Call, Case, Start, Step, Target};
use crate::stores::cells::{JournalCells, MapCells, Room};
use journal::damaged_journal;
use map::damaged_map;
use small::{small_number, small_time};

/// Stores met in sequences, to be damaged.
#[derive(Default)]
pub struct Pool {
    pub journals: Vec<JournalCells>,
    pub maps: Vec<MapCells>,
}

const POOL: usize = 512;

impl Pool {
    /// Keeps the store, in place of a random one where the pool is full.
    pub fn offer(&mut self, random: &mut Random, journal: &JournalCells, map: &MapCells) {
        if self.journals.len() < POOL {
            self.journals.push(journal.clone());
            self.maps.push(map.clone());
            return;
        }
        let place = random.size(POOL);
        self.journals[place] = journal.clone();
        self.maps[place] = map.clone();
    }
}

fn survived(random: &mut Random, bytes: usize) -> usize {
    match random.below(20) {
        0 => bytes + 1,
        1 => random.pick(&[49_151, 49_152, 49_153, usize::MAX, 0, 1, 23, 24]),
        2..=8 => bytes,
        9..=12 => random.size(bytes + 1),
        _ => random.size(bytes / 24 + 1) * 24,
    }
}

fn any_call(random: &mut Random, bytes: usize) -> Call {
    match random.below(12) {
        0 => Call::Begin(small_time(random)),
        1 => Call::Read(small_number(random), small_number(random)),
        2 => Call::Lookup(small_number(random), small_time(random)),
        3 => Call::Assign(small_number(random), small_number(random), random.bits() as u32),
        4 => Call::Add(small_number(random), small_number(random), random.bits() as u32),
        5 => Call::Abort(small_number(random)),
        6 | 7 => Call::Commit(small_number(random), small_time(random)),
        8 => Call::List(small_time(random)),
        9 => Call::Checkpoint(small_time(random)),
        _ => Call::Recover(survived(random, bytes)),
    }
}

/// Now and then less is lent than there is, or a column less.
fn lent_part(random: &mut Random, whole: Room) -> Option<Room> {
    let mut room = whole;
    match random.below(40) {
        0 => room.journal = random.size(whole.journal + 1),
        1 => room.base[random.size(2)] /= 2,
        2 => room.base = room.base.map(|length| length / 2),
        3 => room.versions[random.size(4)] /= 2,
        4 => room.versions = room.versions.map(|length| length / 2),
        5 => room.list[random.size(2)] /= 2,
        _ => return None,
    }
    Some(room)
}

/// A damaged store and a few calls on it.
pub fn damaged_case(random: &mut Random, pool: &Pool) -> Case {
    let of_map = random.once_in(3);
    let cells = match of_map {
        true => (JournalCells::none(), damaged_map(random, &pool.maps)),
        false => (damaged_journal(random, &pool.journals), MapCells::none()),
    };
    let (target, bytes) = (if of_map { Target::Map } else { Target::Journal }, cells.0.bytes.len());
    let start = Start::Given(Box::new(cells));
    let mut steps: Vec<Step> = lent_part(random, start.room()).into_iter().map(Step::Lend).collect();
    for _ in 0..1 + random.size(5) {
        let call = any_call(random, bytes);
        if !of_map || !matches!(call, Call::Recover(_)) {
            steps.push(Step::Ask(target, call));
        }
    }
    Case { start, steps }
}
