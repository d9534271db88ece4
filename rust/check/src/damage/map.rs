//! Map stores with any cells: slots of every shape, versions in any order.

use super::small::{count, short_mostly, small_number, small_time};
use crate::random::Random;
use crate::stores::cells::{MapCells, FREE};
use registers::{MapHead, Slot, Slots};

/// 0 and 1 as calls write them; now and then another number, which is a mark too.
fn any_mark(random: &mut Random) -> u8 {
    if random.once_in(8) {
        return random.bits() as u8;
    }
    random.below(2) as u8
}

fn any_slot(random: &mut Random) -> Slot {
    let count = match random.below(120) {
        0 => 33,
        1 => usize::MAX,
        2..=6 => 32,
        7..=9 => 31,
        _ => random.size(7),
    };
    let mut slot = Slot { number: small_number(random), snapshot: small_time(random), count, ..FREE };
    let apart = random.once_in(2);
    for row in 0..32 {
        slot.keys[row] = if apart { row as u32 } else { small_number(random) };
        slot.values[row] = random.below(9) as u32;
        slot.marks[row] = any_mark(random);
    }
    slot
}

/// Any occupied byte, mostly with a few ones.
fn any_slots(random: &mut Random) -> Slots {
    let mut slots = [FREE; 8];
    slots.iter_mut().for_each(|slot| *slot = any_slot(random));
    let occupied = match random.below(8) {
        0 => 255,
        1 => random.bits() as u8,
        2 => 0,
        3 => 255 ^ (1 << random.below(8)),
        _ => 1 << random.below(8) | 1 << random.below(8),
    };
    Slots { occupied, slots }
}

fn any_head(random: &mut Random, rows: usize) -> MapHead {
    let next = match random.below(30) {
        0 => 0,
        1 => u32::MAX,
        2 => u32::MAX - 1,
        _ => 1 + random.below(8) as u32,
    };
    let low = if random.once_in(4) { small_time(random) } else { random.below(3) };
    let used = count(random, rows, 4096);
    MapHead { low, last: small_time(random), next, used, slots: any_slots(random) }
}

fn with_rows(random: &mut Random, rows: usize) -> MapCells {
    let keys: Vec<u32> = (0..rows).map(|_| small_number(random)).collect();
    let mut times: Vec<u64> = (0..rows).map(|_| small_time(random)).collect();
    let mut values: Vec<u32> = (0..rows).map(|_| random.below(9) as u32).collect();
    let mut marks: Vec<u8> = (0..rows).map(|_| any_mark(random)).collect();
    match random.below(100) {
        0 => times.push(0),
        1 => values.push(0),
        2 => marks.push(0),
        _ => {}
    }
    let list = random.size(9);
    let (listed, contents) = (vec![77; list + usize::from(random.once_in(60))], vec![78; list]);
    MapCells { head: any_head(random, rows), keys, times, values, marks, listed, contents }
}

/// Versions at the limit of section 2 and beyond, and slots that commit into them.
fn at_limits(random: &mut Random) -> MapCells {
    let rows = 4090 + random.size(12);
    let mut cells = with_rows(random, rows);
    cells.times.iter_mut().for_each(|time| *time = (*time).min(5));
    cells.head.used = random.pick(&[4088, 4094, 4095, 4096, 4097]);
    cells
}

fn altered_real(random: &mut Random, pool: &[MapCells]) -> MapCells {
    let mut cells = pool[random.size(pool.len())].clone();
    let place = random.size(8);
    let row = random.size(cells.keys.len());
    match random.below(11) {
        0 => cells.head.slots.occupied ^= 1 << place,
        1 => cells.head.slots.slots[place] = any_slot(random),
        2 => cells.head.low = small_time(random),
        3 => cells.head.last = small_time(random),
        4 => cells.head.used = count(random, cells.keys.len(), 4096),
        5 => cells.times[row] = small_time(random),
        6 => cells.keys[row] = small_number(random),
        7 => cells.marks[row] = any_mark(random),
        8 => cells.head.slots.slots[place].marks[random.size(4)] = any_mark(random),
        9 => cells.head.next = random.pick(&[0, 1, 2, u32::MAX, u32::MAX - 1]),
        _ => cells.head = any_head(random, cells.keys.len()),
    }
    cells
}

pub fn damaged_map(random: &mut Random, pool: &[MapCells]) -> MapCells {
    if random.once_in(600) {
        return at_limits(random);
    }
    if !pool.is_empty() && random.once_in(3) {
        return altered_real(random, pool);
    }
    let rows = short_mostly(random);
    with_rows(random, rows)
}
