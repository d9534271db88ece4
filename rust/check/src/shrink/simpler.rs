//! Starts that are a little simpler than another one: fewer records and rows, smaller rooms, plain heads.

use crate::stores::call::Start;
use crate::stores::cells::{JournalCells, MapCells, Room, FREE};

/// Records or rows of given cells, which can be left out.
pub struct Part {
    pub count: fn(&Start) -> usize,
    /// Without so many of them from a place on.
    pub without: fn(&Start, usize, usize) -> Start,
    /// So many bytes less survive for each that is left out.
    pub bytes: usize,
}

const fn part(count: fn(&Start) -> usize, without: fn(&Start, usize, usize) -> Start, bytes: usize) -> Part {
    Part { count, without, bytes }
}

pub const PARTS: [Part; 6] = [
    part(|start| count(start, records), without_records, 24),
    part(|start| count(start, records), without_records, 0),
    part(|start| count(start, |cells| written_records(cells).len()), zeroed_records, 0),
    part(|start| count(start, base_rows), without_base, 0),
    part(|start| count(start, version_rows), without_versions, 0),
    part(|start| count(start, list_rows), without_list, 0),
];

type Cells = (JournalCells, MapCells);

fn count(start: &Start, rows: fn(&Cells) -> usize) -> usize {
    match start {
        Start::Given(cells) => rows(cells),
        Start::Empty { .. } => 0,
    }
}

fn records(cells: &Cells) -> usize {
    cells.0.bytes.len() / 24
}

/// The places of records that are not all zero.
fn written_records(cells: &Cells) -> Vec<usize> {
    let written = |record: &[u8]| record.iter().any(|&byte| byte != 0);
    cells.0.bytes.chunks_exact(24).enumerate().filter(|(_, record)| written(record)).map(|(place, _)| place).collect()
}

fn base_rows(cells: &Cells) -> usize {
    cells.0.keys.len().min(cells.0.values.len())
}

fn version_rows(cells: &Cells) -> usize {
    let map = &cells.1;
    map.keys.len().min(map.times.len()).min(map.values.len()).min(map.marks.len())
}

fn list_rows(cells: &Cells) -> usize {
    let shorter = |keys: &[u32], contents: &[u32]| keys.len().min(contents.len());
    shorter(&cells.0.listed, &cells.0.contents).max(shorter(&cells.1.listed, &cells.1.contents))
}

fn changed(start: &Start, change: impl FnOnce(&mut Cells)) -> Start {
    let mut start = start.clone();
    if let Start::Given(cells) = &mut start {
        change(cells);
    }
    start
}

/// A count of used rows when rows of the column are left out.
fn used_after(used: usize, from: usize, size: usize) -> usize {
    used - size.min(used.saturating_sub(from))
}

fn without_records(start: &Start, from: usize, size: usize) -> Start {
    changed(start, |(journal, _)| {
        journal.bytes.drain(from * 24..(from + size) * 24);
        journal.head.used = used_after(journal.head.used, from, size);
    })
}

/// Zero bytes in place of records: a record of no kind takes up room and says nothing.
fn zeroed_records(start: &Start, from: usize, size: usize) -> Start {
    changed(start, |cells| {
        for place in written_records(cells).into_iter().skip(from).take(size) {
            cells.0.bytes[place * 24..place * 24 + 24].fill(0);
        }
    })
}

fn without_base(start: &Start, from: usize, size: usize) -> Start {
    changed(start, |(journal, _)| {
        journal.keys.drain(from..from + size);
        journal.values.drain(from..from + size);
        journal.head.base_rows = used_after(journal.head.base_rows, from, size);
    })
}

fn without_versions(start: &Start, from: usize, size: usize) -> Start {
    changed(start, |(_, map)| {
        map.keys.drain(from..from + size);
        map.times.drain(from..from + size);
        map.values.drain(from..from + size);
        map.marks.drain(from..from + size);
        map.head.used = used_after(map.head.used, from, size);
    })
}

/// From the end: which of the rows go makes no difference.
fn without_list(start: &Start, _from: usize, size: usize) -> Start {
    changed(start, |(journal, map)| {
        for column in [&mut journal.listed, &mut journal.contents, &mut map.listed, &mut map.contents] {
            column.truncate(column.len().saturating_sub(size));
        }
    })
}

fn smaller_rooms(room: Room) -> Vec<Room> {
    let mut rooms = Vec::new();
    let less = |length: usize| [length / 2, length.saturating_sub(1)];
    for journal in [room.journal / 48 * 24, room.journal.saturating_sub(24), room.journal / 24 * 24] {
        rooms.push(Room { journal, ..room });
    }
    for at in 0..2 {
        rooms.push(Room { base: room.base.map(|length| less(length)[at]), ..room });
        rooms.push(Room { versions: room.versions.map(|length| less(length)[at]), ..room });
        rooms.push(Room { list: room.list.map(|length| less(length)[at]), ..room });
    }
    rooms
}

fn plainer_given(start: &Start) -> Vec<Start> {
    let slots = (0..8).flat_map(|place| {
        let bit = changed(start, |(_, map)| map.head.slots.occupied &= !(1 << place));
        [bit, changed(start, |(_, map)| map.head.slots.slots[place] = FREE)]
    });
    let mut starts: Vec<Start> = slots.collect();
    starts.push(changed(start, |(journal, _)| journal.bytes.truncate(journal.bytes.len() / 24 * 24)));
    starts.push(changed(start, |(journal, _)| journal.head.low = 0));
    starts.push(changed(start, |(journal, _)| journal.head.floor = 1));
    starts.push(changed(start, |(_, map)| map.head.low = 0));
    starts.push(changed(start, |(_, map)| map.head.next = 1));
    starts
}

/// The starts that are a little simpler than this one.
pub fn simpler_starts(start: &Start) -> Vec<Start> {
    let Start::Empty { low, floor, junk, capacity } = *start else { return plainer_given(start) };
    let rooms = smaller_rooms(capacity).into_iter();
    let mut starts: Vec<Start> = rooms.map(|capacity| Start::Empty { low, floor, junk, capacity }).collect();
    starts.push(Start::Empty { low: 0, floor, junk, capacity });
    starts.push(Start::Empty { low, floor: 1, junk, capacity });
    starts.push(Start::Empty { low, floor, junk: 0, capacity });
    starts
}
