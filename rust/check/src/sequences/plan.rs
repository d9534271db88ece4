//! What a random sequence is like: its rooms, keys, length, and how often each call comes.

use crate::random::Random;
use crate::stores::call::Start;
use crate::stores::cells::Room;

/// Which keys a sequence uses.
#[derive(Clone)]
pub enum Keys {
    /// From 1 to this.
    UpTo(u32),
    /// These few, anywhere in the range.
    Among(Vec<u32>),
}

#[derive(Clone)]
pub struct Plan {
    pub start: Start,
    pub keys: Keys,
    pub steps: usize,
    /// How often each call of `NAMES` comes.
    pub weights: [u64; 10],
    /// Lent rooms change now and then, columns become unequal.
    pub rooms_change: bool,
    /// Now and then only one of the stores is asked.
    pub one_alone: bool,
    /// Most calls are to be accepted, so that the rooms fill.
    pub filling: bool,
    /// Checkpoints are asked of the journal alone, so that the versions pile up.
    pub versions_pile_up: bool,
}

// In the order of `NAMES`: begin, read, lookup, assign, add, abort, commit, list, checkpoint, recover.
const ORDINARY: [u64; 10] = [14, 6, 6, 18, 18, 4, 16, 8, 6, 4];
const CROWDED: [u64; 10] = [40, 3, 3, 12, 12, 6, 8, 6, 6, 4];
const ADDING: [u64; 10] = [18, 6, 6, 4, 26, 4, 18, 8, 6, 4];
const WIDE: [u64; 10] = [4, 3, 3, 40, 40, 1, 4, 3, 1, 1];
const FILLING: [u64; 10] = [200, 20, 20, 1000, 1000, 30, 240, 1, 0, 0];
const PILING_UP: [u64; 10] = [200, 10, 10, 1000, 1000, 30, 160, 1, 10, 0];
pub const AT_LIMITS: [u64; 10] = [14, 3, 4, 20, 20, 3, 14, 3, 2, 3];

/// Columns of equal length, and bytes for so many records and a part of one.
fn equal_room(records: usize, part: usize, base: usize, versions: usize, list: usize) -> Room {
    Room { base: [base; 2], journal: records * 24 + part, versions: [versions; 4], list: [list; 2] }
}

/// Mostly an empty store as made; now and then one whose earlier life has left low or floor high.
fn empty_start(random: &mut Random, capacity: Room) -> Start {
    let low = match random.below(24) {
        0 => random.below(6),
        1 => u64::MAX - random.below(5),
        2 => random.bits(),
        _ => 0,
    };
    let floor = match random.below(20) {
        0 => u32::MAX - random.below(5) as u32,
        1 => 1 + random.below(9) as u32,
        _ => 1,
    };
    Start::Empty { low, floor, junk: random.below(1_000_000), capacity }
}

fn few_keys(random: &mut Random) -> Keys {
    match random.below(6) {
        0 => Keys::Among((0..6).map(|_| (random.bits() as u32).max(1)).chain([1, u32::MAX]).collect()),
        1 => Keys::UpTo(12),
        _ => Keys::UpTo(1 + random.below(5) as u32),
    }
}

/// Most sequences: small rooms that are soon full.
fn small_plan(random: &mut Random) -> Plan {
    let records = if random.once_in(3) { random.size(64) } else { 3 + random.size(24) };
    let (base, versions, list) = (random.size(7), random.size(14), random.size(8));
    let part = random.size(24);
    let start = empty_start(random, equal_room(records, part, base, versions, list));
    let (keys, steps) = (few_keys(random), 4 + random.size(46));
    let weights = random.pick(&[CROWDED, ADDING, ADDING, ORDINARY, ORDINARY]);
    let (rooms_change, one_alone) = (random.once_in(6), random.once_in(12));
    Plan { start, keys, steps, weights, rooms_change, one_alone, filling: false, versions_pile_up: false }
}

/// Transactions that write more keys than a transaction may.
fn wide_plan(random: &mut Random) -> Plan {
    let records = 45 + random.size(70);
    let (base, versions, list) = (20 + random.size(30), 30 + random.size(70), 20 + random.size(40));
    let start = empty_start(random, equal_room(records, 0, base, versions, list));
    let steps = 60 + random.size(70);
    let rooms_change = random.once_in(10);
    let keys = Keys::UpTo(34 + random.below(12) as u32);
    Plan { start, keys, steps, weights: WIDE, rooms_change, one_alone: false, filling: false, versions_pile_up: false }
}

pub fn random_plan(random: &mut Random) -> Plan {
    if random.once_in(40) {
        return wide_plan(random);
    }
    small_plan(random)
}

/// The rooms of section 2's limits, or a little more, and calls that fill them.
pub fn full_plan(random: &mut Random) -> Plan {
    let more = if random.once_in(2) { 0 } else { 1 + random.size(20) };
    let capacity = equal_room(2048 + more, more % 24, 512 + more, 4096 + more, 700);
    let start = Start::Empty { low: 0, floor: 1, junk: random.below(1_000_000), capacity };
    let versions_pile_up = random.once_in(2);
    let highest = if versions_pile_up { 200 } else { 490 + random.below(130) as u32 };
    let (steps, weights) = if versions_pile_up { (20_000, PILING_UP) } else { (5000, FILLING) };
    let keys = Keys::UpTo(highest);
    Plan { start, keys, steps, weights, rooms_change: false, one_alone: false, filling: true, versions_pile_up }
}
