//! What the library says of itself, held to what a host in Rust is compiled with: limits, numbers, and the layout of both
//! heads. Section 2's empty stores too.

use crate::stores::cells::{empty_head, empty_map_head};
use crate::stores::differ::{same, Difference};
use registers::about::{Limits, Numbers};
use registers::{about, journal, limits, map, numbers, JournalHead, MapHead, Slot, Slots};

const LIMITS: Limits = Limits {
    layout: limits::LAYOUT,
    running: limits::RUNNING as u32,
    keys: limits::KEYS as u32,
    base_rows: limits::BASE_ROWS as u32,
    version_rows: limits::VERSION_ROWS as u32,
    journal_bytes: limits::JOURNAL_BYTES as u32,
    record_bytes: limits::RECORD_BYTES as u32,
    refusals: numbers::BAD_RECORD,
};

const NUMBERS: Numbers = Numbers {
    bad_shape: numbers::BAD_SHAPE,
    unknown_transaction: numbers::UNKNOWN_TRANSACTION,
    bad_key: numbers::BAD_KEY,
    too_old: numbers::TOO_OLD,
    future: numbers::FUTURE,
    too_many: numbers::TOO_MANY,
    no_numbers: numbers::NO_NUMBERS,
    keys_full: numbers::KEYS_FULL,
    held: numbers::HELD,
    not_later: numbers::NOT_LATER,
    conflict: numbers::CONFLICT,
    no_room: numbers::NO_ROOM,
    bad_record: numbers::BAD_RECORD,
};

/// Gives 1, 2, 3 and so on.
struct Places(u32);

impl Places {
    fn next(&mut self) -> u32 {
        self.0 += 1;
        self.0
    }

    fn column(&mut self) -> [u32; limits::KEYS] {
        std::array::from_fn(|_| self.next())
    }

    fn slot(&mut self) -> Slot {
        Slot {
            number: self.next(),
            snapshot: self.next().into(),
            count: self.next() as usize,
            keys: self.column(),
            values: self.column(),
            marks: self.column().map(|place| place as u8),
        }
    }
}

/// Every field holds its place, in the order in which the fields are declared; a mark, one byte, what of it fits.
fn journal_sample() -> JournalHead {
    let mut places = Places(0);
    JournalHead {
        low: places.next().into(),
        floor: places.next(),
        base_rows: places.next() as usize,
        used: places.next() as usize,
    }
}

fn map_sample() -> MapHead {
    let mut places = Places(0);
    MapHead {
        low: places.next().into(),
        last: places.next().into(),
        next: places.next(),
        used: places.next() as usize,
        slots: Slots { occupied: places.next() as u8, slots: std::array::from_fn(|_| places.slot()) },
    }
}

pub fn agree() -> Result<(), Difference> {
    same("limits", &LIMITS, &about::limits())?;
    same("numbers", &NUMBERS, &about::numbers())?;
    same("fields of a journal head", &journal_sample(), &journal::sample())?;
    same("fields of a map head", &map_sample(), &map::sample())?;
    same("empty journal head", &empty_head(0, 1), &journal::empty())?;
    same("empty map head", &empty_map_head(0, 1), &map::empty())
}
