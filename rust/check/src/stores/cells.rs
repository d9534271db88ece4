//! The memory of both stores: heads, columns, journal bytes and list columns, and how much of it a call is lent.

use crate::random::Random;
use registers::{JournalHead, MapHead, Slot, Slots};

/// How many elements of each column a call is lent, from the start of the column.
#[derive(Clone, Copy, PartialEq, Eq, Debug, Default)]
pub struct Room {
    /// Base keys and base values.
    pub base: [usize; 2],
    /// Bytes of the journal.
    pub journal: usize,
    /// Version keys, times, values and marks.
    pub versions: [usize; 4],
    /// The list's keys and contents.
    pub list: [usize; 2],
}

/// Everything a host owns for a journal store, and the columns it lends for a list.
#[derive(Clone, PartialEq, Eq, Debug)]
pub struct JournalCells {
    pub head: JournalHead,
    pub keys: Vec<u32>,
    pub values: Vec<u32>,
    pub bytes: Vec<u8>,
    pub listed: Vec<u32>,
    pub contents: Vec<u32>,
}

/// The same for a map store.
#[derive(Clone, PartialEq, Eq, Debug)]
pub struct MapCells {
    pub head: MapHead,
    pub keys: Vec<u32>,
    pub times: Vec<u64>,
    pub values: Vec<u32>,
    pub marks: Vec<u8>,
    pub listed: Vec<u32>,
    pub contents: Vec<u32>,
}

pub const FREE: Slot = Slot { number: 0, snapshot: 0, count: 0, keys: [0; 32], values: [0; 32], marks: [0; 32] };

pub fn empty_head(low: u64, floor: u32) -> JournalHead {
    JournalHead { low, floor, base_rows: 0, used: 0 }
}

pub fn empty_map_head(low: u64, next: u32) -> MapHead {
    MapHead { low, last: low, next, used: 0, slots: Slots { occupied: 0, slots: [FREE; 8] } }
}

/// Elements behind the capacity that no call is ever lent; they must keep their contents too.
const MARGIN: usize = 3;

fn junk_u32(random: &mut Random, length: usize) -> Vec<u32> {
    (0..length + MARGIN).map(|_| random.bits() as u32 & random.bits() as u32).collect()
}

impl JournalCells {
    /// No columns at all.
    pub fn none() -> JournalCells {
        let nothing = || Vec::new();
        let (keys, values, listed, contents) = (nothing(), nothing(), nothing(), nothing());
        JournalCells { head: empty_head(0, 1), keys, values, bytes: Vec::new(), listed, contents }
    }

    /// An empty store; every cell beyond the counts holds junk (section 2 says nothing of them).
    pub fn empty(low: u64, floor: u32, capacity: Room, random: &mut Random) -> JournalCells {
        JournalCells {
            head: empty_head(low, floor),
            keys: junk_u32(random, capacity.base[0]),
            values: junk_u32(random, capacity.base[1]),
            bytes: (0..capacity.journal + MARGIN).map(|_| random.below(7) as u8).collect(),
            listed: junk_u32(random, capacity.list[0]),
            contents: junk_u32(random, capacity.list[1]),
        }
    }
}

impl MapCells {
    /// No columns at all.
    pub fn none() -> MapCells {
        let nothing = || Vec::new();
        let (keys, values, listed, contents) = (nothing(), nothing(), nothing(), nothing());
        let (times, marks) = (Vec::new(), Vec::new());
        MapCells { head: empty_map_head(0, 1), keys, times, values, marks, listed, contents }
    }

    /// An empty store; every cell beyond the counts holds junk.
    pub fn empty(low: u64, next: u32, capacity: Room, random: &mut Random) -> MapCells {
        MapCells {
            head: empty_map_head(low, next),
            keys: junk_u32(random, capacity.versions[0]),
            times: (0..capacity.versions[1] + MARGIN).map(|_| random.below(9)).collect(),
            values: junk_u32(random, capacity.versions[2]),
            marks: (0..capacity.versions[3] + MARGIN).map(|_| random.below(3) as u8).collect(),
            listed: junk_u32(random, capacity.list[0]),
            contents: junk_u32(random, capacity.list[1]),
        }
    }
}

/// The lent part of a column; a column has at least what a script lends, or all of it is lent.
pub fn lent<T>(column: &mut [T], length: usize) -> &mut [T] {
    let length = length.min(column.len());
    &mut column[..length]
}
