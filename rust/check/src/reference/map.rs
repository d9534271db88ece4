//! Section 6 for the map store: each call makes its tests in the order given there, then acts.

use super::map_rules::{first_rows, free_place, occupied_slots, only_added, place_of, row_of, settled};
use super::map_rules::{Versions, ZERO_SLOT};
use super::reply::{refuse, Reply};
use super::{added, journal::write_rows, KEYS_WRITTEN, NO_NUMBER, RUNNING, VERSIONS};
use registers::{MapHead, Slot};

/// What a call is lent: the four version columns.
pub struct Lent<'a> {
    pub keys: &'a mut [u32],
    pub times: &'a mut [u64],
    pub values: &'a mut [u32],
    pub marks: &'a mut [u8],
}

/// Section 2: rows beyond the limit are not used.
fn version_room(lent: &Lent) -> usize {
    VERSIONS.min(lent.keys.len())
}

/// 6 no. 1.
fn bad_shape(head: &MapHead, lent: &Lent) -> bool {
    let columns_differ = [lent.times.len(), lent.values.len(), lent.marks.len()] != [lent.keys.len(); 3];
    let slot_over = occupied_slots(head).any(|slot| slot.count > KEYS_WRITTEN);
    columns_differ || head.used > version_room(lent) || head.next == 0 || slot_over
}

fn versions_of<'a>(head: &MapHead, lent: &'a Lent) -> Versions<'a> {
    let used = head.used;
    let (keys, times) = (&lent.keys[..used], &lent.times[..used]);
    Versions { keys, times, values: &lent.values[..used], marks: &lent.marks[..used] }
}

/// 3.5: the newest version at or before its snapshot, then its own effects on the key.
fn running_value(slot: &Slot, versions: &Versions, k: u32) -> Option<u32> {
    let at_snapshot = versions.value_at(k, slot.snapshot);
    match row_of(slot, k) {
        Some(row) => Some(settled(slot, row, at_snapshot)),
        None => at_snapshot,
    }
}

fn free_slot(head: &mut MapHead, place: usize) {
    head.slots.slots[place] = ZERO_SLOT;
    head.slots.occupied &= !(1 << place);
}

pub fn begin(head: &mut MapHead, lent: &Lent, t: u64) -> Reply {
    refuse(1, bad_shape(head, lent))?;
    refuse(4, t < head.low)?;
    refuse(5, t > head.last)?;
    refuse(6, occupied_slots(head).count() >= RUNNING)?;
    refuse(7, head.next == NO_NUMBER)?;
    let number = head.next;
    if let Some(place) = free_place(head) {
        head.slots.slots[place] = Slot { number, snapshot: t, ..ZERO_SLOT };
        head.slots.occupied |= 1 << place;
    }
    head.next = number + 1;
    Ok(Some(u64::from(number)))
}

pub fn read(head: &MapHead, lent: &Lent, n: u32, k: u32) -> Reply {
    refuse(1, bad_shape(head, lent))?;
    refuse(2, place_of(head, n).is_none())?;
    refuse(3, k == 0)?;
    let slot = place_of(head, n).map(|place| &head.slots.slots[place]);
    Ok(slot.and_then(|slot| running_value(slot, &versions_of(head, lent), k)).map(u64::from))
}

pub fn lookup(head: &MapHead, lent: &Lent, k: u32, t: u64) -> Reply {
    refuse(1, bad_shape(head, lent))?;
    refuse(3, k == 0)?;
    refuse(4, t < head.low)?;
    refuse(5, t > head.last)?;
    Ok(versions_of(head, lent).value_at(k, t).map(u64::from))
}

/// 3.1: what an update does.
#[derive(Clone, Copy)]
enum Effect {
    Assign(u32),
    Add(u32),
}

fn update(head: &mut MapHead, lent: &Lent, n: u32, k: u32, effect: Effect) -> Reply {
    refuse(1, bad_shape(head, lent))?;
    refuse(2, place_of(head, n).is_none())?;
    let slot = place_of(head, n).map_or(ZERO_SLOT, |place| head.slots.slots[place]);
    refuse(3, k == 0)?;
    refuse(8, row_of(&slot, k).is_none() && slot.count >= KEYS_WRITTEN)?;
    if let Some(place) = place_of(head, n) {
        head.slots.slots[place] = noted(slot, k, effect);
    }
    Ok(None)
}

/// The slot with the effect noted: in the key's row, or in a new row behind the others. An assign stands for all before
/// it and takes the mark away for good; an add goes onto what was assigned, or onto the total.
fn noted(mut slot: Slot, k: u32, effect: Effect) -> Slot {
    let known = row_of(&slot, k);
    let row = known.unwrap_or(slot.count);
    let (value, marked) = match (effect, known) {
        (Effect::Assign(v), _) => (v, false),
        (Effect::Add(d), Some(row)) => (added(Some(slot.values[row]), d), only_added(&slot, row)),
        (Effect::Add(d), None) => (d, true),
    };
    slot.keys[row] = k;
    slot.values[row] = value;
    slot.marks[row] = u8::from(marked);
    slot.count = slot.count.max(row + 1);
    slot
}

pub fn assign(head: &mut MapHead, lent: &Lent, n: u32, k: u32, v: u32) -> Reply {
    update(head, lent, n, k, Effect::Assign(v))
}

pub fn add(head: &mut MapHead, lent: &Lent, n: u32, k: u32, d: u32) -> Reply {
    update(head, lent, n, k, Effect::Add(d))
}

pub fn abort(head: &mut MapHead, lent: &Lent, n: u32) -> Reply {
    refuse(1, bad_shape(head, lent))?;
    refuse(2, place_of(head, n).is_none())?;
    if let Some(place) = place_of(head, n) {
        free_slot(head, place);
    }
    Ok(None)
}

/// T-01: a key whose effects are all adds gets its total on the newest committed value, which is the value at last.
pub fn commit(head: &mut MapHead, lent: &mut Lent, n: u32, ct: u64) -> Reply {
    refuse(1, bad_shape(head, lent))?;
    let place = place_of(head, n);
    refuse(2, place.is_none())?;
    refuse(10, ct <= head.last)?;
    let slot = place.map_or(ZERO_SLOT, |place| head.slots.slots[place]);
    refuse(11, versions_of(head, lent).conflict(&slot))?;
    let rows = first_rows(&slot);
    refuse(12, rows.len() > version_room(lent) - head.used)?;
    for row in rows {
        let newest = versions_of(head, lent).value_at(slot.keys[row], head.last);
        lent.keys[head.used] = slot.keys[row];
        lent.times[head.used] = ct;
        lent.values[head.used] = settled(&slot, row, newest);
        lent.marks[head.used] = u8::from(only_added(&slot, row));
        head.used += 1;
    }
    head.last = ct;
    place.into_iter().for_each(|place| free_slot(head, place));
    Ok(None)
}

pub fn list(head: &MapHead, lent: &Lent, t: u64, listed: &mut [u32], contents: &mut [u32]) -> Reply {
    refuse(1, bad_shape(head, lent) || listed.len() != contents.len())?;
    refuse(4, t < head.low)?;
    refuse(5, t > head.last)?;
    let rows = versions_of(head, lent).list_at(t);
    refuse(12, rows.len() > listed.len())?;
    write_rows(&rows, listed, contents);
    Ok(Some(rows.len() as u64))
}

/// 3.10.
pub fn checkpoint(head: &mut MapHead, lent: &mut Lent, t: u64) -> Reply {
    refuse(1, bad_shape(head, lent))?;
    refuse(4, t < head.low)?;
    refuse(5, t > head.last)?;
    refuse(9, occupied_slots(head).any(|slot| t > slot.snapshot))?;
    let versions = versions_of(head, lent);
    let rows: Vec<(u32, u64, u32, u8)> = versions
        .kept_at(t)
        .into_iter()
        .map(|row| (versions.keys[row], versions.times[row], versions.values[row], versions.marks[row]))
        .collect();
    for row in 0..head.used {
        let (key, time, value, mark) = rows.get(row).copied().unwrap_or((0, 0, 0, 0));
        lent.keys[row] = key;
        lent.times[row] = time;
        lent.values[row] = value;
        lent.marks[row] = mark;
    }
    head.low = t;
    head.used = rows.len();
    Ok(None)
}
