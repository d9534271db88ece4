//! SQLite in memory as an engine of the workload, through its C interface: one table, prepared statements. It keeps the
//! newest values alone.

use super::engine::{Engine, REGISTERS};
use std::ffi::{c_char, c_int, c_void, CStr};
use std::ptr::null_mut;

/// Values of sqlite3.h.
const OK: c_int = 0;
const ROW: c_int = 100;
const DONE: c_int = 101;

type Handle = *mut c_void;

#[link(name = "sqlite3")]
unsafe extern "C" {
    fn sqlite3_libversion() -> *const c_char;
    fn sqlite3_open(name: *const c_char, database: *mut Handle) -> c_int;
    fn sqlite3_close(database: Handle) -> c_int;
    fn sqlite3_prepare_v2(
        database: Handle,
        text: *const c_char,
        bytes: c_int,
        made: *mut Handle,
        rest: *mut *const c_char,
    ) -> c_int;
    fn sqlite3_bind_int64(statement: Handle, place: c_int, value: i64) -> c_int;
    fn sqlite3_step(statement: Handle) -> c_int;
    fn sqlite3_column_int64(statement: Handle, column: c_int) -> i64;
    fn sqlite3_reset(statement: Handle) -> c_int;
    fn sqlite3_finalize(statement: Handle) -> c_int;
}

/// A prepared statement.
struct Statement(Handle);

impl Statement {
    fn new(database: Handle, text: &CStr) -> Self {
        let mut made = null_mut();
        // A negative count of bytes says that the text ends at its zero byte.
        let answer = unsafe { sqlite3_prepare_v2(database, text.as_ptr(), -1, &mut made, null_mut()) };
        assert_eq!(answer, OK, "SQLite does not take {text:?}");
        Statement(made)
    }

    fn bind(&self, values: &[u32]) {
        for (place, &value) in (1..).zip(values) {
            assert_eq!(unsafe { sqlite3_bind_int64(self.0, place, i64::from(value)) }, OK);
        }
    }

    /// Runs it; each row is shown as its first two columns.
    fn run(&self, values: &[u32], mut row: impl FnMut(u32, u32)) {
        self.bind(values);
        loop {
            match unsafe { sqlite3_step(self.0) } {
                ROW => unsafe { row(sqlite3_column_int64(self.0, 0) as u32, sqlite3_column_int64(self.0, 1) as u32) },
                answer => break assert_eq!(answer, DONE, "SQLite refuses a step"),
            }
        }
        assert_eq!(unsafe { sqlite3_reset(self.0) }, OK);
    }
}

impl Drop for Statement {
    fn drop(&mut self) {
        unsafe { sqlite3_finalize(self.0) };
    }
}

/// The database and the statements of the workload, which go before it.
pub struct Sqlite {
    name: String,
    begin: Statement,
    assign: Statement,
    add: Statement,
    commit: Statement,
    lookup: Statement,
    list: Statement,
    _database: Database,
}

struct Database(Handle);

impl Drop for Database {
    fn drop(&mut self) {
        unsafe { sqlite3_close(self.0) };
    }
}

impl Sqlite {
    pub fn new() -> Self {
        let mut handle = null_mut();
        assert_eq!(unsafe { sqlite3_open(c":memory:".as_ptr(), &mut handle) }, OK, "SQLite does not open");
        let made = |text| Statement::new(handle, text);
        made(c"CREATE TABLE registers (key INTEGER PRIMARY KEY, value INTEGER NOT NULL)").run(&[], |_, _| {});
        let insert = made(c"INSERT INTO registers VALUES (?, ?)");
        (1..=REGISTERS as u32).for_each(|k| insert.run(&[k, k], |_, _| {}));
        let version = unsafe { CStr::from_ptr(sqlite3_libversion()) };
        Sqlite {
            name: format!("SQLite {}, in memory", version.to_string_lossy()),
            begin: made(c"BEGIN"),
            assign: made(c"UPDATE registers SET value = ?2 WHERE key = ?1"),
            add: made(c"UPDATE registers SET value = (value + ?2) & 4294967295 WHERE key = ?1"),
            commit: made(c"COMMIT"),
            lookup: made(c"SELECT key, value FROM registers WHERE key = ?"),
            list: made(c"SELECT key, value FROM registers ORDER BY key"),
            _database: Database(handle),
        }
    }
}

impl Engine for Sqlite {
    fn name(&self) -> &str {
        &self.name
    }

    fn cycle(&self) -> Option<usize> {
        None
    }

    fn transact(&mut self, assign: (u32, u32), add: (u32, u32)) {
        self.begin.run(&[], |_, _| {});
        self.assign.run(&[assign.0, assign.1], |_, _| {});
        self.add.run(&[add.0, add.1], |_, _| {});
        self.commit.run(&[], |_, _| {});
    }

    fn checkpoint(&mut self) {}

    fn lookup(&mut self, k: u32) -> u32 {
        let mut found = 0;
        self.lookup.run(&[k], |_, value| found = value);
        found
    }

    fn list(&mut self, keys: &mut [u32], values: &mut [u32]) -> usize {
        let mut rows = 0;
        self.list.run(&[], |key, value| {
            (keys[rows], values[rows]) = (key, value);
            rows += 1;
        });
        rows
    }
}
