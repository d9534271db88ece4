//! A case as a script: plain lines that can be run again.
//!
//! A script of a sequence begins with `empty`, one of a damaged store with `given` and its cells. `lend` says how much
//! of each column the calls from there on are lent; each other line is a call of `both` stores, `journal` or `map`.

use crate::stores::call::{Call, Case, Start, Step, Target, NAMES};
use crate::stores::cells::{JournalCells, MapCells, Room, FREE};
use crate::stores::differ::hex;
use std::fmt::Write;

fn words<T: ToString>(numbers: &[T], between: &str) -> String {
    numbers.iter().map(T::to_string).collect::<Vec<_>>().join(between)
}

fn room_words(room: &Room) -> String {
    let Room { base, journal, versions, list } = room;
    let (base, versions, list) = (words(base, ","), words(versions, ","), words(list, ","));
    format!("base={base} journal={journal} versions={versions} list={list}")
}

pub fn call_words(call: Call) -> String {
    let arguments = match call {
        Call::Begin(t) | Call::List(t) | Call::Checkpoint(t) => format!("{t}"),
        Call::Read(n, k) => format!("{n} {k}"),
        Call::Lookup(k, t) => format!("{k} {t}"),
        Call::Assign(n, k, v) | Call::Add(n, k, v) => format!("{n} {k} {v}"),
        Call::Abort(n) => format!("{n}"),
        Call::Commit(n, t) => format!("{n} {t}"),
        Call::Recover(survived) => format!("{survived}"),
    };
    format!("{} {arguments}", NAMES[call.place()])
}

pub fn step_words(step: Step) -> String {
    match step {
        Step::Lend(room) => format!("lend {}", room_words(&room)),
        Step::Ask(Target::Both, call) => format!("both {}", call_words(call)),
        Step::Ask(Target::Journal, call) => format!("journal {}", call_words(call)),
        Step::Ask(Target::Map, call) => format!("map {}", call_words(call)),
    }
}

/// A line for a column that is not empty.
fn column_words<T: ToString>(name: &str, column: &[T]) -> String {
    if column.is_empty() {
        return String::new();
    }
    format!("{name} {}\n", words(column, " "))
}

/// A record a line; zero records next to each other in one line.
fn bytes_words(bytes: &[u8]) -> String {
    let mut text = String::new();
    let mut rest = bytes;
    while !rest.is_empty() {
        let zeros = rest.iter().take_while(|&&byte| byte == 0).count() / 24 * 24;
        let taken = if zeros > 0 { zeros } else { rest.len().min(24) };
        let line = if zeros > 0 { format!("zeros {zeros}\n") } else { format!("bytes {}\n", hex(&rest[..taken])) };
        text += &line;
        rest = &rest[taken..];
    }
    text
}

fn journal_words(cells: &JournalCells) -> String {
    let head = &cells.head;
    let mut text =
        format!("journal-head low={} floor={} rows={} used={}\n", head.low, head.floor, head.base_rows, head.used);
    text += &column_words("base-keys", &cells.keys);
    text += &column_words("base-values", &cells.values);
    text += &bytes_words(&cells.bytes);
    text += &column_words("journal-list-keys", &cells.listed);
    text += &column_words("journal-list-contents", &cells.contents);
    text
}

fn map_words(cells: &MapCells) -> String {
    let head = &cells.head;
    let mut text = format!(
        "map-head low={} last={} next={} used={} occupied={}\n",
        head.low, head.last, head.next, head.used, head.slots.occupied
    );
    for (place, slot) in head.slots.slots.iter().enumerate().filter(|(_, slot)| **slot != FREE) {
        let [keys, values] = [slot.keys, slot.values].map(|column| words(&column, ","));
        let marks = words(&slot.marks, ",");
        let (number, snapshot, count) = (slot.number, slot.snapshot, slot.count);
        let _ = writeln!(
            text,
            "slot place={place} number={number} snapshot={snapshot} count={count} keys={keys} values={values} marks={marks}"
        );
    }
    text += &column_words("version-keys", &cells.keys);
    text += &column_words("version-times", &cells.times);
    text += &column_words("version-values", &cells.values);
    text += &column_words("version-marks", &cells.marks);
    text += &column_words("map-list-keys", &cells.listed);
    text += &column_words("map-list-contents", &cells.contents);
    text
}

fn start_words(start: &Start) -> String {
    match start {
        Start::Empty { low, floor, junk, capacity } => {
            format!("empty low={low} floor={floor} junk={junk} {}\n", room_words(capacity))
        }
        Start::Given(cells) => {
            let mut text = String::from("given\n");
            if cells.0 != JournalCells::none() {
                text += &journal_words(&cells.0);
            }
            if cells.1 != MapCells::none() {
                text += &map_words(&cells.1);
            }
            text
        }
    }
}

pub fn script_of(case: &Case) -> String {
    let steps: String = case.steps.iter().map(|step| step_words(*step) + "\n").collect();
    start_words(&case.start) + &steps
}
