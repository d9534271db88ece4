//! LMDB as an engine of the workload, through its C interface. It lies in a folder but is told not to flush
//! (MDB_NOSYNC) and to write straight into its map (MDB_WRITEMAP), since the stores beside it leave flushing to the
//! host. It keeps the newest values alone.

use super::engine::{Engine, REGISTERS};
use std::ffi::{c_char, c_int, c_uint, c_void, CString};
use std::path::{Path, PathBuf};
use std::ptr::null_mut;

/// Values of lmdb.h.
const NOSYNC: c_uint = 0x10000;
const RDONLY: c_uint = 0x20000;
const CREATE: c_uint = 0x40000;
const WRITEMAP: c_uint = 0x80000;
const INTEGERKEY: c_uint = 0x08;
const FIRST: c_int = 0;
const NEXT: c_int = 8;
const SUCCESS: c_int = 0;

/// Owner may read, write and enter.
const MODE: c_uint = 0o700;
/// Room for far more than 512 registers.
const MAP_BYTES: usize = 1 << 24;

type Handle = *mut c_void;

/// MDB_val: so many bytes there.
#[repr(C)]
struct Bytes {
    size: usize,
    data: *mut c_void,
}

#[link(name = "lmdb")]
unsafe extern "C" {
    fn mdb_version(major: *mut c_int, minor: *mut c_int, patch: *mut c_int) -> *const c_char;
    fn mdb_env_create(environment: *mut Handle) -> c_int;
    fn mdb_env_set_mapsize(environment: Handle, bytes: usize) -> c_int;
    fn mdb_env_open(environment: Handle, path: *const c_char, flags: c_uint, mode: c_uint) -> c_int;
    fn mdb_env_close(environment: Handle);
    fn mdb_txn_begin(environment: Handle, parent: Handle, flags: c_uint, transaction: *mut Handle) -> c_int;
    fn mdb_txn_commit(transaction: Handle) -> c_int;
    fn mdb_txn_abort(transaction: Handle);
    fn mdb_txn_reset(transaction: Handle);
    fn mdb_txn_renew(transaction: Handle) -> c_int;
    fn mdb_dbi_open(transaction: Handle, name: *const c_char, flags: c_uint, table: *mut c_uint) -> c_int;
    fn mdb_put(transaction: Handle, table: c_uint, key: *mut Bytes, value: *mut Bytes, flags: c_uint) -> c_int;
    fn mdb_get(transaction: Handle, table: c_uint, key: *mut Bytes, value: *mut Bytes) -> c_int;
    fn mdb_cursor_open(transaction: Handle, table: c_uint, cursor: *mut Handle) -> c_int;
    fn mdb_cursor_get(cursor: Handle, key: *mut Bytes, value: *mut Bytes, operation: c_int) -> c_int;
    fn mdb_cursor_close(cursor: Handle);
}

fn must(answer: c_int) {
    assert_eq!(answer, SUCCESS, "LMDB refuses a call");
}

/// A number as LMDB takes it.
fn bytes_of(number: &mut u32) -> Bytes {
    Bytes { size: size_of::<u32>(), data: std::ptr::from_mut(number).cast() }
}

/// A number as LMDB gives it, which need not be aligned.
fn number_of(bytes: &Bytes) -> u32 {
    assert_eq!(bytes.size, size_of::<u32>());
    unsafe { bytes.data.cast::<u32>().read_unaligned() }
}

fn none() -> Bytes {
    Bytes { size: 0, data: null_mut() }
}

/// The environment, its one table, and the transaction that lookups and listings read with, set back between them.
pub struct Lmdb {
    name: String,
    folder: PathBuf,
    environment: Handle,
    table: c_uint,
    reader: Handle,
}

impl Lmdb {
    /// Made anew in a folder of its own below the one given.
    pub fn new(below: &Path) -> Self {
        let folder = below.join("lmdb");
        let _ = std::fs::remove_dir_all(&folder);
        std::fs::create_dir_all(&folder).expect("a folder for LMDB");
        let path = CString::new(folder.to_str().expect("a path in UTF-8")).expect("a path without zero bytes");
        let (mut environment, mut table) = (null_mut(), 0);
        unsafe {
            must(mdb_env_create(&mut environment));
            must(mdb_env_set_mapsize(environment, MAP_BYTES));
            must(mdb_env_open(environment, path.as_ptr(), NOSYNC | WRITEMAP, MODE));
        }
        let writer = begin(environment, 0);
        must(unsafe { mdb_dbi_open(writer, std::ptr::null(), INTEGERKEY | CREATE, &mut table) });
        (1..=REGISTERS as u32).for_each(|k| put(writer, table, k, k));
        must(unsafe { mdb_txn_commit(writer) });
        let reader = begin(environment, RDONLY);
        unsafe { mdb_txn_reset(reader) };
        Lmdb { name: name(), folder, environment, table, reader }
    }
}

fn name() -> String {
    let (mut major, mut minor, mut patch) = (0, 0, 0);
    unsafe { mdb_version(&mut major, &mut minor, &mut patch) };
    format!("LMDB {major}.{minor}.{patch}, not flushed")
}

fn begin(environment: Handle, flags: c_uint) -> Handle {
    let mut transaction = null_mut();
    must(unsafe { mdb_txn_begin(environment, null_mut(), flags, &mut transaction) });
    transaction
}

fn put(writer: Handle, table: c_uint, mut key: u32, mut value: u32) {
    must(unsafe { mdb_put(writer, table, &mut bytes_of(&mut key), &mut bytes_of(&mut value), 0) });
}

fn get(transaction: Handle, table: c_uint, mut key: u32) -> u32 {
    let mut value = none();
    must(unsafe { mdb_get(transaction, table, &mut bytes_of(&mut key), &mut value) });
    number_of(&value)
}

impl Engine for Lmdb {
    fn name(&self) -> &str {
        &self.name
    }

    fn cycle(&self) -> Option<usize> {
        None
    }

    fn transact(&mut self, assign: (u32, u32), add: (u32, u32)) {
        let writer = begin(self.environment, 0);
        put(writer, self.table, assign.0, assign.1);
        let old = get(writer, self.table, add.0);
        put(writer, self.table, add.0, old.wrapping_add(add.1));
        must(unsafe { mdb_txn_commit(writer) });
    }

    fn checkpoint(&mut self) {}

    fn lookup(&mut self, k: u32) -> u32 {
        must(unsafe { mdb_txn_renew(self.reader) });
        let value = get(self.reader, self.table, k);
        unsafe { mdb_txn_reset(self.reader) };
        value
    }

    fn list(&mut self, keys: &mut [u32], values: &mut [u32]) -> usize {
        let (mut cursor, mut key, mut value) = (null_mut(), none(), none());
        let mut rows = 0;
        unsafe {
            must(mdb_txn_renew(self.reader));
            must(mdb_cursor_open(self.reader, self.table, &mut cursor));
            let mut operation = FIRST;
            while mdb_cursor_get(cursor, &mut key, &mut value, operation) == SUCCESS {
                (keys[rows], values[rows]) = (number_of(&key), number_of(&value));
                rows += 1;
                operation = NEXT;
            }
            mdb_cursor_close(cursor);
            mdb_txn_reset(self.reader);
        }
        rows
    }
}

impl Drop for Lmdb {
    fn drop(&mut self) {
        unsafe {
            mdb_txn_abort(self.reader);
            mdb_env_close(self.environment);
        }
        let _ = std::fs::remove_dir_all(&self.folder);
    }
}
