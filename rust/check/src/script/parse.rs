//! Reads a script back.

use crate::stores::call::{Call, Case, Start, Step, Target};
use crate::stores::cells::{JournalCells, MapCells, Room};
use std::str::FromStr;

type Parsed<T> = Result<T, String>;

fn number<T: FromStr>(word: &str) -> Parsed<T> {
    word.parse().map_err(|_| format!("'{word}' is no number that fits"))
}

fn numbers<T: FromStr>(words: &[&str]) -> Parsed<Vec<T>> {
    words.iter().map(|word| number(word)).collect()
}

/// The text behind `name=`.
fn field<'a>(words: &[&'a str], name: &str) -> Parsed<&'a str> {
    let found = words.iter().filter_map(|word| word.split_once('=')).find(|(left, _)| *left == name);
    found.map(|(_, right)| right).ok_or(format!("{name}= is missing"))
}

fn number_field<T: FromStr>(words: &[&str], name: &str) -> Parsed<T> {
    number(field(words, name)?)
}

fn numbers_field<T: FromStr, const N: usize>(words: &[&str], name: &str) -> Parsed<[T; N]> {
    let parts: Vec<&str> = field(words, name)?.split(',').collect();
    let all: Vec<T> = numbers(&parts)?;
    all.try_into().map_err(|_| format!("{name}= needs {N} numbers"))
}

fn room_of(words: &[&str]) -> Parsed<Room> {
    Ok(Room {
        base: numbers_field(words, "base")?,
        journal: number_field(words, "journal")?,
        versions: numbers_field(words, "versions")?,
        list: numbers_field(words, "list")?,
    })
}

fn empty_of(words: &[&str]) -> Parsed<Start> {
    let (low, floor) = (number_field(words, "low")?, number_field(words, "floor")?);
    Ok(Start::Empty { low, floor, junk: number_field(words, "junk")?, capacity: room_of(words)? })
}

fn call_of(words: &[&str]) -> Parsed<Call> {
    Ok(match *words {
        ["begin", t] => Call::Begin(number(t)?),
        ["read", n, k] => Call::Read(number(n)?, number(k)?),
        ["lookup", k, t] => Call::Lookup(number(k)?, number(t)?),
        ["assign", n, k, v] => Call::Assign(number(n)?, number(k)?, number(v)?),
        ["add", n, k, d] => Call::Add(number(n)?, number(k)?, number(d)?),
        ["abort", n] => Call::Abort(number(n)?),
        ["commit", n, t] => Call::Commit(number(n)?, number(t)?),
        ["list", t] => Call::List(number(t)?),
        ["checkpoint", t] => Call::Checkpoint(number(t)?),
        ["recover", survived] => Call::Recover(number(survived)?),
        _ => return Err(format!("'{}' is no call", words.join(" "))),
    })
}

fn bytes_of(words: &[&str]) -> Parsed<Vec<u8>> {
    let digits = words.concat();
    let pairs = (0..digits.len() / 2).map(|at| digits.get(at * 2..at * 2 + 2).unwrap_or("?"));
    pairs.map(|pair| u8::from_str_radix(pair, 16).map_err(|_| format!("'{pair}' is no byte"))).collect()
}

fn take_map_head(words: &[&str], cells: &mut MapCells) -> Parsed<()> {
    cells.head.low = number_field(words, "low")?;
    cells.head.last = number_field(words, "last")?;
    cells.head.next = number_field(words, "next")?;
    cells.head.used = number_field(words, "used")?;
    cells.head.slots.occupied = number_field(words, "occupied")?;
    Ok(())
}

fn take_slot(words: &[&str], cells: &mut MapCells) -> Parsed<()> {
    let place: usize = number_field(words, "place")?;
    let slot = cells.head.slots.slots.get_mut(place).ok_or("slots are 0 to 7")?;
    slot.number = number_field(words, "number")?;
    slot.snapshot = number_field(words, "snapshot")?;
    slot.count = number_field(words, "count")?;
    slot.keys = numbers_field(words, "keys")?;
    slot.values = numbers_field(words, "values")?;
    slot.marks = numbers_field(words, "marks")?;
    Ok(())
}

fn take_head(words: &[&str], cells: &mut JournalCells) -> Parsed<()> {
    cells.head.low = number_field(words, "low")?;
    cells.head.floor = number_field(words, "floor")?;
    cells.head.base_rows = number_field(words, "rows")?;
    cells.head.used = number_field(words, "used")?;
    Ok(())
}

/// A line of a given store's cells; false if it is none.
fn take_cells(name: &str, words: &[&str], cells: &mut (JournalCells, MapCells)) -> Parsed<bool> {
    let (journal, map) = cells;
    match name {
        "journal-head" => take_head(words, journal)?,
        "base-keys" => journal.keys = numbers(words)?,
        "base-values" => journal.values = numbers(words)?,
        "bytes" => journal.bytes.extend(bytes_of(words)?),
        "zeros" => journal.bytes.resize(journal.bytes.len() + number::<usize>(&words.concat())?, 0),
        "journal-list-keys" => journal.listed = numbers(words)?,
        "journal-list-contents" => journal.contents = numbers(words)?,
        "map-head" => take_map_head(words, map)?,
        "slot" => take_slot(words, map)?,
        "version-keys" => map.keys = numbers(words)?,
        "version-times" => map.times = numbers(words)?,
        "version-values" => map.values = numbers(words)?,
        "version-marks" => map.marks = numbers(words)?,
        "map-list-keys" => map.listed = numbers(words)?,
        "map-list-contents" => map.contents = numbers(words)?,
        _ => return Ok(false),
    }
    Ok(true)
}

fn take_line(line: &str, case: &mut Case) -> Parsed<()> {
    let words: Vec<&str> = line.split_whitespace().collect();
    let Some((name, rest)) = words.split_first().filter(|(name, _)| !name.starts_with('#')) else { return Ok(()) };
    if let Start::Given(cells) = &mut case.start {
        if take_cells(name, rest, cells)? {
            return Ok(());
        }
    }
    match *name {
        "given" => {}
        "empty" => case.start = empty_of(rest)?,
        "lend" => case.steps.push(Step::Lend(room_of(rest)?)),
        "both" => case.steps.push(Step::Ask(Target::Both, call_of(rest)?)),
        "journal" => case.steps.push(Step::Ask(Target::Journal, call_of(rest)?)),
        "map" => case.steps.push(Step::Ask(Target::Map, call_of(rest)?)),
        _ => return Err(format!("'{name}' begins no line")),
    }
    Ok(())
}

pub fn case_of(script: &str) -> Parsed<Case> {
    let nothing = Start::Given(Box::new((JournalCells::none(), MapCells::none())));
    let mut case = Case { start: nothing, steps: Vec::new() };
    for (place, line) in script.lines().enumerate() {
        take_line(line, &mut case).map_err(|problem| format!("line {}: {problem}", place + 1))?;
    }
    Ok(case)
}

#[cfg(test)]
mod tests {
    use super::case_of;
    use crate::damage::{damaged_case, Pool};
    use crate::random::Random;
    use crate::script::write::script_of;
    use crate::stores::call::{Call, Case, Start, Step, Target};
    use crate::stores::cells::Room;

    #[test]
    fn a_damaged_store_reads_back() {
        let mut random = Random::new(7);
        for _ in 0..2000 {
            let case = damaged_case(&mut random, &Pool::default());
            assert_eq!(case_of(&script_of(&case)), Ok(case));
        }
    }

    #[test]
    fn a_sequence_reads_back() {
        let room = Room { base: [1, 2], journal: 100, versions: [3, 4, 5, 6], list: [7, 8] };
        let calls = [
            Call::Begin(u64::MAX),
            Call::Read(1, 2),
            Call::Lookup(3, 4),
            Call::Assign(5, 6, 7),
            Call::Add(8, 9, u32::MAX),
            Call::Abort(10),
            Call::Commit(11, 12),
            Call::List(13),
            Call::Checkpoint(14),
            Call::Recover(usize::MAX),
        ];
        let targets = [Target::Both, Target::Journal, Target::Map];
        let asked = targets.iter().flat_map(|target| calls.iter().map(|call| Step::Ask(*target, *call)));
        let steps = asked.chain([Step::Lend(room)]).collect();
        let case = Case { start: Start::Empty { low: 1, floor: 2, junk: 3, capacity: room }, steps };
        assert_eq!(case_of(&script_of(&case)), Ok(case));
    }

    #[test]
    fn a_line_that_says_nothing_is_named() {
        assert_eq!(case_of("given\nboth jump 1"), Err(String::from("line 2: 'jump 1' is no call")));
    }
}
