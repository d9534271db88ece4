//! The rule book's own examples: section 7's input, section 8's table and its list of cases to run.

use super::record::{Record, SIZE};
use super::reply::{Refusal, Reply};
use super::{journal, map, recovery};
use crate::reference::map_rules::ZERO_SLOT;
use registers::{JournalHead, MapHead, Slots};

struct JournalStore {
    head: JournalHead,
    keys: Vec<u32>,
    values: Vec<u32>,
    bytes: Vec<u8>,
}

impl JournalStore {
    fn empty() -> JournalStore {
        let head = JournalHead { low: 0, floor: 1, base_rows: 0, used: 0 };
        JournalStore { head, keys: vec![7; 512], values: vec![7; 512], bytes: vec![7; 2048 * SIZE] }
    }

    fn call<R>(&mut self, act: impl FnOnce(&mut JournalHead, &mut journal::Lent) -> R) -> R {
        let lent = &mut journal::Lent { keys: &mut self.keys, values: &mut self.values, journal: &mut self.bytes };
        act(&mut self.head, lent)
    }

    fn lookup(&mut self, k: u32, t: u64) -> Reply {
        self.call(|head, lent| journal::lookup(head, lent, k, t))
    }

    fn list(&mut self, t: u64) -> Vec<(u32, u32)> {
        let (mut keys, mut values) = (vec![0; 2048], vec![0; 2048]);
        let count = self.call(|head, lent| journal::list(head, lent, t, &mut keys, &mut values));
        let count = count.expect("listed").expect("a count") as usize;
        keys.into_iter().zip(values).take(count).collect()
    }

    fn begin(&mut self, t: u64) -> Reply {
        self.call(|head, lent| journal::begin(head, lent, t))
    }

    fn assign(&mut self, n: u32, k: u32, v: u32) -> Reply {
        self.call(|head, lent| journal::assign(head, lent, n, k, v))
    }

    fn add(&mut self, n: u32, k: u32, d: u32) -> Reply {
        self.call(|head, lent| journal::add(head, lent, n, k, d))
    }

    fn commit(&mut self, n: u32, t: u64) -> Reply {
        self.call(|head, lent| journal::commit(head, lent, n, t))
    }

    fn checkpoint(&mut self, t: u64) -> Reply {
        self.call(|head, lent| journal::checkpoint(head, lent, t))
    }

    fn recover(&mut self, survived: usize) -> Reply {
        self.call(|head, lent| recovery::recover(head, lent, survived))
    }
}

struct MapStore {
    head: MapHead,
    keys: Vec<u32>,
    times: Vec<u64>,
    values: Vec<u32>,
    marks: Vec<u8>,
}

impl MapStore {
    fn empty() -> MapStore {
        let slots = Slots { occupied: 0, slots: [ZERO_SLOT; 8] };
        let head = MapHead { low: 0, last: 0, next: 1, used: 0, slots };
        MapStore { head, keys: vec![7; 4096], times: vec![7; 4096], values: vec![7; 4096], marks: vec![7; 4096] }
    }

    fn call<R>(&mut self, act: impl FnOnce(&mut MapHead, &mut map::Lent) -> R) -> R {
        let (keys, times) = (&mut self.keys, &mut self.times);
        let lent = &mut map::Lent { keys, times, values: &mut self.values, marks: &mut self.marks };
        act(&mut self.head, lent)
    }

    fn begin(&mut self, t: u64) -> Reply {
        self.call(|head, lent| map::begin(head, lent, t))
    }

    fn assign(&mut self, n: u32, k: u32, v: u32) -> Reply {
        self.call(|head, lent| map::assign(head, lent, n, k, v))
    }

    fn lookup(&mut self, k: u32, t: u64) -> Reply {
        self.call(|head, lent| map::lookup(head, lent, k, t))
    }
}

fn refused<T>(number: u32) -> Result<T, Refusal> {
    Err(Refusal { number, place: None })
}

fn section_7() -> Vec<u8> {
    let records = [
        (1, 1, 0, 0, 0),
        (2, 1, 5, 10, 0),
        (4, 1, 0, 0, 2),
        (1, 2, 0, 0, 2),
        (3, 2, 5, 2, 0),
        (2, 2, 9, 7, 0),
        (4, 2, 0, 0, 3),
        (1, 3, 0, 0, 3),
        (2, 3, 9, 99, 0),
    ];
    let mut bytes: Vec<u8> =
        records.iter().flat_map(|&(k, n, key, v, t)| Record::new(k, n, key, v, t).to_bytes()).collect();
    bytes.extend([0; 10]);
    bytes
}

#[test]
fn section_7_lists_two_keys() {
    let mut store = JournalStore::empty();
    store.bytes = section_7();
    let survived = store.bytes.len();
    assert_eq!(store.recover(survived), Ok(None));
    assert_eq!(store.head, JournalHead { low: 0, floor: 4, base_rows: 0, used: 7 });
    assert_eq!(store.list(3), [(5, 12), (9, 7)]);
    assert!(store.bytes[7 * SIZE..].iter().all(|&byte| byte == 0));
}

#[test]
fn section_7_cut_anywhere_recovers() {
    for cut in 0..=section_7().len() - 10 {
        let mut store = JournalStore::empty();
        store.bytes = section_7();
        assert_eq!(store.recover(cut), Ok(None), "cut at {cut}");
    }
}

/// Figure 7: x is key 1, y is key 2; -3 is add 4,294,967,293.
const FIGURE_7: [&[(bool, u32, u32)]; 6] = [
    &[(true, 1, 0)],
    &[(true, 2, 0)],
    &[(false, 1, 4), (true, 2, 0)],
    &[(false, 1, 1)],
    &[(false, 1, 4_294_967_293)],
    &[(false, 1, 2)],
];

/// The marked table: key, time, value.
const MARKED: [(u32, u64, Option<u64>); 9] = [
    (1, 0, None),
    (1, 1, Some(0)),
    (1, 2, Some(0)),
    (1, 3, Some(4)),
    (1, 4, Some(5)),
    (1, 5, Some(2)),
    (1, 6, Some(4)),
    (2, 1, None),
    (2, 3, Some(0)),
];

#[test]
fn figure_7_in_the_journal_store() {
    let mut store = JournalStore::empty();
    for (time, updates) in (0..).zip(FIGURE_7) {
        let n = store.begin(time).expect("begun").expect("a number") as u32;
        for &(assigns, k, v) in updates {
            assert_eq!(if assigns { store.assign(n, k, v) } else { store.add(n, k, v) }, Ok(None));
        }
        assert_eq!(store.commit(n, time + 1), Ok(None));
    }
    for (k, t, value) in MARKED {
        assert_eq!(store.lookup(k, t), Ok(value), "key {k} at {t}");
    }
    assert_eq!(store.lookup(2, 7), refused(5));
}

#[test]
fn figure_7_in_the_map_store() {
    let mut store = MapStore::empty();
    for (time, updates) in (0..).zip(FIGURE_7) {
        let n = store.begin(time).expect("begun").expect("a number") as u32;
        for &(assigns, k, v) in updates {
            let done = if assigns { store.assign(n, k, v) } else { store.call(|h, lent| map::add(h, lent, n, k, v)) };
            assert_eq!(done, Ok(None));
        }
        assert_eq!(store.call(|head, lent| map::commit(head, lent, n, time + 1)), Ok(None));
    }
    for (k, t, value) in MARKED {
        assert_eq!(store.lookup(k, t), Ok(value), "key {k} at {t}");
    }
    assert_eq!(store.lookup(2, 7), refused(5));
}

#[test]
fn a_full_register_gives_0_after_add_1() {
    assert_eq!(super::added(Some(4_294_967_295), 1), 0);
}

#[test]
fn eighth_begin_accepted_ninth_refused_6() {
    let (mut journal, mut map) = (JournalStore::empty(), MapStore::empty());
    for number in 1..=8 {
        assert_eq!(journal.begin(0), Ok(Some(number)));
        assert_eq!(map.begin(0), Ok(Some(number)));
    }
    assert_eq!(journal.begin(0), refused(6));
    assert_eq!(map.begin(0), refused(6));
}

#[test]
fn key_33_is_refused_8() {
    let (mut journal, mut map) = (JournalStore::empty(), MapStore::empty());
    assert_eq!((journal.begin(0), map.begin(0)), (Ok(Some(1)), Ok(Some(1))));
    for k in (1..=32).chain([32]) {
        assert_eq!((journal.assign(1, k, k), map.assign(1, k, k)), (Ok(None), Ok(None)));
    }
    assert_eq!((journal.assign(1, 33, 0), map.assign(1, 33, 0)), (refused(8), refused(8)));
}

#[test]
fn commit_at_last_is_refused_10_one_later_accepted() {
    let mut store = JournalStore::empty();
    assert_eq!((store.begin(0), store.begin(0)), (Ok(Some(1)), Ok(Some(2))));
    assert_eq!(store.commit(1, 5), Ok(None));
    assert_eq!((store.commit(2, 5), store.commit(2, 6)), (refused(10), Ok(None)));
}

#[test]
fn checkpoint_up_to_the_oldest_running_snapshot() {
    let mut store = JournalStore::empty();
    assert_eq!((store.begin(0), store.commit(1, 3)), (Ok(Some(1)), Ok(None)));
    assert_eq!((store.begin(3), store.begin(3)), (Ok(Some(2)), Ok(Some(3))));
    assert_eq!((store.assign(2, 4, 0), store.commit(2, 9)), (Ok(None), Ok(None)));
    assert_eq!((store.checkpoint(4), store.checkpoint(3), store.checkpoint(3)), (refused(9), Ok(None), Ok(None)));
    assert_eq!(store.head, JournalHead { low: 3, floor: 4, base_rows: 0, used: 4 });
    assert_eq!((store.list(3), store.list(9)), (vec![], vec![(4, 0)]));
    assert_eq!(store.begin(9), Ok(Some(4)));
}

#[test]
fn a_cut_at_0_1_23_and_24_bytes() {
    for (cut, floor) in [(0, 1), (1, 1), (23, 1), (24, 2)] {
        let mut store = JournalStore::empty();
        assert_eq!((store.begin(0), store.assign(1, 1, 1)), (Ok(Some(1)), Ok(None)));
        assert_eq!(store.recover(cut), Ok(None));
        assert_eq!(store.head, JournalHead { low: 0, floor, base_rows: 0, used: 0 });
        assert!(store.bytes[..cut].iter().all(|&byte| byte == 0));
    }
}

#[test]
fn zero_bytes_are_a_bad_record() {
    let mut store = JournalStore::empty();
    store.bytes.fill(0);
    assert_eq!(store.recover(24), Err(Refusal { number: 13, place: Some(0) }));
    assert_eq!(store.recover(49_153), refused(1));
}
