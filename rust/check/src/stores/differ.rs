//! Says where expectation and result differ: the first cell, in words.

use crate::stores::cells::{JournalCells, MapCells};
use std::fmt::Debug;

#[derive(Clone, PartialEq, Eq, Debug)]
pub struct Difference {
    pub what: String,
    pub expected: String,
    pub got: String,
}

impl Difference {
    pub fn new(what: impl Into<String>, expected: impl Debug, got: impl Debug) -> Difference {
        Difference { what: what.into(), expected: format!("{expected:?}"), got: format!("{got:?}") }
    }
}

/// `Ok` if equal.
pub fn same<T: PartialEq + Debug>(what: &str, expected: &T, got: &T) -> Result<(), Difference> {
    if expected == got {
        return Ok(());
    }
    Err(Difference::new(what, expected, got))
}

/// Columns of one length; the first row that differs.
fn same_column<T: PartialEq + Debug>(what: &str, expected: &[T], got: &[T]) -> Result<(), Difference> {
    let mut rows = expected.iter().zip(got).enumerate();
    let Some((row, (expected, got))) = rows.find(|(_, (expected, got))| expected != got) else { return Ok(()) };
    Err(Difference::new(format!("{what}, row {row}"), expected, got))
}

/// Every cell of a journal store, also those that the call was not lent.
pub fn same_journal(expected: &JournalCells, got: &JournalCells) -> Result<(), Difference> {
    if expected == got {
        return Ok(());
    }
    same("journal head", &expected.head, &got.head)?;
    same_column("base keys", &expected.keys, &got.keys)?;
    same_column("base values", &expected.values, &got.values)?;
    let records = |bytes: &[u8]| bytes.chunks(24).map(hex).collect::<Vec<_>>();
    same_column("journal records", &records(&expected.bytes), &records(&got.bytes))?;
    same_column("list keys", &expected.listed, &got.listed)?;
    same_column("list contents", &expected.contents, &got.contents)
}

/// Every cell of a map store.
pub fn same_map(expected: &MapCells, got: &MapCells) -> Result<(), Difference> {
    if expected == got {
        return Ok(());
    }
    let numbers = |cells: &MapCells| (cells.head.low, cells.head.last, cells.head.next, cells.head.used);
    same("map head (low, last, next, used)", &numbers(expected), &numbers(got))?;
    same("occupied", &expected.head.slots.occupied, &got.head.slots.occupied)?;
    same_column("slots", &expected.head.slots.slots, &got.head.slots.slots)?;
    same_column("version keys", &expected.keys, &got.keys)?;
    same_column("version times", &expected.times, &got.times)?;
    same_column("version values", &expected.values, &got.values)?;
    same_column("version marks", &expected.marks, &got.marks)?;
    same_column("list keys", &expected.listed, &got.listed)?;
    same_column("list contents", &expected.contents, &got.contents)
}

pub fn hex(bytes: &[u8]) -> String {
    bytes.iter().map(|byte| format!("{byte:02x}")).collect()
}
