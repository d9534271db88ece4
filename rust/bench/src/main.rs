//! The benchmark: what the library's calls take, beside plain Rust, SQLite and LMDB. `rust/bench/run` builds and runs it.

mod calls;
mod lent;
mod plain;
mod report;
mod stores;
mod timing;
mod workload;

use calls::{agree, stack};
use registers::limits::{BASE_ROWS, JOURNAL_RECORDS, VERSION_ROWS};
use report::table;
use report::Pair;
use std::path::Path;
use stores::{Plain, Proved};
use workload::engine::Engine;
use workload::store;

/// The sizes whose doubling is measured.
const RECORDS: [usize; 4] = [JOURNAL_RECORDS / 8, JOURNAL_RECORDS / 4, JOURNAL_RECORDS / 2, JOURNAL_RECORDS];
const MAP_VERSIONS: [usize; 4] = [VERSION_ROWS / 8, VERSION_ROWS / 4, VERSION_ROWS / 2, VERSION_ROWS];

/// When a host takes a checkpoint that keeps its store short, long before it is full.
const SHORT_RECORDS: usize = JOURNAL_RECORDS / 4;
const SHORT_VERSIONS: usize = VERSION_ROWS / 4;

fn short() -> String {
    format!("{} records or {} versions", table::figure(SHORT_RECORDS as f64), table::figure(SHORT_VERSIONS as f64))
}

/// The engines whose packages are installed; of the others it is said that they are not.
fn engines(_folder: &Path) -> Vec<Box<dyn Engine>> {
    vec![
        Box::new(store::journal::<Plain>("plain Rust, journal", JOURNAL_RECORDS)),
        Box::new(store::journal::<Proved>("library, journal", JOURNAL_RECORDS)),
        Box::new(store::journal::<Proved>("library, journal, kept short", SHORT_RECORDS)),
        Box::new(store::map::<Plain>("plain Rust, map", VERSION_ROWS)),
        Box::new(store::map::<Proved>("library, map", VERSION_ROWS)),
        Box::new(store::map::<Proved>("library, map, kept short", SHORT_VERSIONS)),
        #[cfg(feature = "sqlite")]
        Box::new(workload::sqlite::Sqlite::new()),
        #[cfg(feature = "lmdb")]
        Box::new(workload::lmdb::Lmdb::new(_folder)),
    ]
}

fn say_missing() {
    if !cfg!(feature = "sqlite") {
        println!("SQLite is left out: the package libsqlite3-dev is missing.\n");
    }
    if !cfg!(feature = "lmdb") {
        println!("LMDB is left out: the package liblmdb-dev is missing.\n");
    }
}

/// The sizes of one store, for the tables of its calls.
struct Levels {
    names: Vec<&'static str>,
    empty: Vec<Pair>,
    half: Vec<Pair>,
    /// All registers, and as many records or versions as the sizes say; the last is a full store.
    sizes: Vec<Vec<Pair>>,
}

impl Levels {
    fn new(names: Vec<&'static str>, times: fn(usize, usize) -> Vec<Pair>, sizes: &[usize]) -> Self {
        let full = sizes[sizes.len() - 1];
        Levels {
            names,
            empty: times(0, 0),
            half: times(BASE_ROWS / 2, full / 2),
            sizes: sizes.iter().map(|&size| times(BASE_ROWS, size)).collect(),
        }
    }

    fn print_fill(&self) {
        report::print_fill(&self.names, [&self.empty, &self.half, &self.sizes[self.sizes.len() - 1]]);
    }
}

fn print_workload(folder: &Path) {
    println!("\n### The register workload\n");
    println!("512 registers; a transaction is begin, assign, add, commit, its share of the checkpoints included.");
    println!(
        "Averages from one checkpoint to the next, the best of at least {} times; ratios are against the",
        workload::TIMES
    );
    println!("first line. Kept short: a checkpoint at {} instead of a full store.\n", short());
    say_missing();
    workload::print(engines(folder));
}

fn main() {
    let folder = std::env::args().nth(1).expect("the folder for LMDB's files");
    println!("Plain Rust answers as the library does: {} random calls, the same answers and cells.", agree::compare());
    let samples = timing::ROUNDS * timing::SAMPLES;
    println!("Times are the best of at least {samples} samples; ratio is the library's time over plain Rust's.");
    let journal = Levels::new(calls::journal::names(), calls::journal::times, &RECORDS);
    println!("\n### The journal store's calls\n");
    println!("Full is 2,048 records and 512 base rows, half full is half of both. Of three columns the first is the library.\n");
    journal.print_fill();
    let map = Levels::new(calls::map::names(), calls::map::times, &MAP_VERSIONS);
    println!("\n### The map store's calls\n");
    println!(
        "Full is 4,096 versions of 512 keys, half full is half of both. Of three columns the first is the library.\n"
    );
    map.print_fill();
    print_workload(Path::new(&folder));
    println!("\n### The stack of a call\n");
    println!("On a full store; the library's call with its wrapper in the benchmark.\n");
    stack::print();
    println!("\n### Recovery of a full journal\n");
    report::print_recoveries(&calls::journal::recoveries(BASE_ROWS));
    println!("\n### How the journal store's calls grow with its records\n");
    report::print_growth(&journal.names, &RECORDS, &journal.sizes);
    println!("\n### How the map store's calls grow with its versions\n");
    report::print_growth(&map.names, &MAP_VERSIONS, &map.sizes);
}
