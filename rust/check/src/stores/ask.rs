//! Makes a call of the library, and the same call of the reference, on cells.

use crate::reference::reply::Reply;
use crate::reference::{journal, map, recovery};
use crate::stores::call::Call;
use crate::stores::cells::{lent, JournalCells, MapCells, Room};
use registers::Answer;

/// A reply in the form of the interface.
fn answer_of(reply: Reply) -> Answer {
    let (number, value) = match reply {
        Ok(value) => (0, value),
        Err(refusal) => (refusal.number, refusal.place.map(|place| place as u64)),
    };
    Answer { number, present: u32::from(value.is_some()), value: value.unwrap_or(0) }
}

pub fn library_journal(call: Call, cells: &mut JournalCells, room: &Room) -> Answer {
    use registers::journal as calls;
    let h = cells.head;
    let k = lent(&mut cells.keys, room.base[0]);
    let v = lent(&mut cells.values, room.base[1]);
    let j = lent(&mut cells.bytes, room.journal);
    let l = lent(&mut cells.listed, room.list[0]);
    let c = lent(&mut cells.contents, room.list[1]);
    let result = match call {
        Call::Begin(t) => calls::begin(h, k, v, j, t),
        Call::Read(n, key) => return calls::read(h, k, v, j, n, key),
        Call::Lookup(key, t) => return calls::lookup(h, k, v, j, key, t),
        Call::Assign(n, key, value) => calls::assign(h, k, v, j, n, key, value),
        Call::Add(n, key, d) => calls::add(h, k, v, j, n, key, d),
        Call::Abort(n) => calls::abort(h, k, v, j, n),
        Call::Commit(n, t) => calls::commit(h, k, v, j, n, t),
        Call::List(t) => return calls::list(h, k, v, j, t, l, c),
        Call::Checkpoint(t) => calls::checkpoint(h, k, v, j, t),
        Call::Recover(survived) => calls::recover(h, k, v, j, survived),
    };
    cells.head = result.head;
    result.answer
}

pub fn reference_journal(call: Call, cells: &mut JournalCells, room: &Room) -> Answer {
    let head = &mut cells.head;
    let (keys, values) = (lent(&mut cells.keys, room.base[0]), lent(&mut cells.values, room.base[1]));
    let store = &mut journal::Lent { keys, values, journal: lent(&mut cells.bytes, room.journal) };
    let listed = lent(&mut cells.listed, room.list[0]);
    let contents = lent(&mut cells.contents, room.list[1]);
    answer_of(match call {
        Call::Begin(t) => journal::begin(head, store, t),
        Call::Read(n, k) => journal::read(head, store, n, k),
        Call::Lookup(k, t) => journal::lookup(head, store, k, t),
        Call::Assign(n, k, v) => journal::assign(head, store, n, k, v),
        Call::Add(n, k, d) => journal::add(head, store, n, k, d),
        Call::Abort(n) => journal::abort(head, store, n),
        Call::Commit(n, t) => journal::commit(head, store, n, t),
        Call::List(t) => journal::list(head, store, t, listed, contents),
        Call::Checkpoint(t) => journal::checkpoint(head, store, t),
        Call::Recover(survived) => recovery::recover(head, store, survived),
    })
}

/// `None` for recover, which the map store does not have.
pub fn library_map(call: Call, cells: &mut MapCells, room: &Room) -> Option<Answer> {
    use registers::map as calls;
    let h = cells.head;
    let k = lent(&mut cells.keys, room.versions[0]);
    let t = lent(&mut cells.times, room.versions[1]);
    let v = lent(&mut cells.values, room.versions[2]);
    let m = lent(&mut cells.marks, room.versions[3]);
    let l = lent(&mut cells.listed, room.list[0]);
    let c = lent(&mut cells.contents, room.list[1]);
    let result = match call {
        Call::Begin(at) => calls::begin(h, k, t, v, m, at),
        Call::Read(n, key) => return Some(calls::read(h, k, t, v, m, n, key)),
        Call::Lookup(key, at) => return Some(calls::lookup(h, k, t, v, m, key, at)),
        Call::Assign(n, key, value) => calls::assign(h, k, t, v, m, n, key, value),
        Call::Add(n, key, d) => calls::add(h, k, t, v, m, n, key, d),
        Call::Abort(n) => calls::abort(h, k, t, v, m, n),
        Call::Commit(n, at) => calls::commit(h, k, t, v, m, n, at),
        Call::List(at) => return Some(calls::list(h, k, t, v, m, at, l, c)),
        Call::Checkpoint(at) => calls::checkpoint(h, k, t, v, m, at),
        Call::Recover(_) => return None,
    };
    cells.head = result.head;
    Some(result.answer)
}

/// `None` for recover, which the map store does not have.
pub fn reference_map(call: Call, cells: &mut MapCells, room: &Room) -> Option<Answer> {
    let head = &mut cells.head;
    let keys = lent(&mut cells.keys, room.versions[0]);
    let times = lent(&mut cells.times, room.versions[1]);
    let values = lent(&mut cells.values, room.versions[2]);
    let store = &mut map::Lent { keys, times, values, marks: lent(&mut cells.marks, room.versions[3]) };
    let listed = lent(&mut cells.listed, room.list[0]);
    let contents = lent(&mut cells.contents, room.list[1]);
    Some(answer_of(match call {
        Call::Begin(t) => map::begin(head, store, t),
        Call::Read(n, k) => map::read(head, store, n, k),
        Call::Lookup(k, t) => map::lookup(head, store, k, t),
        Call::Assign(n, k, v) => map::assign(head, store, n, k, v),
        Call::Add(n, k, d) => map::add(head, store, n, k, d),
        Call::Abort(n) => map::abort(head, store, n),
        Call::Commit(n, t) => map::commit(head, store, n, t),
        Call::List(t) => map::list(head, store, t, listed, contents),
        Call::Checkpoint(t) => map::checkpoint(head, store, t),
        Call::Recover(_) => return None,
    }))
}
