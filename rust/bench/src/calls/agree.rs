//! Whether plain Rust gives the same answers and leaves the same cells as the library: random calls on small stores,
//! damaged ones among them.

use crate::lent::{JournalLent, MapLent};
use crate::stores::{Calls, Plain, Proved};
use registers::limits::RECORD_BYTES;
use registers::{Answer, JournalHead, MapHead};

/// How many stores are tried of each kind, and how many calls on each.
const STORES: usize = 100;
const CALLS: usize = 250;
/// Where the random numbers start: any number but 0.
const START: u64 = 2463534242;
/// One call in so many finds a number of the store damaged, in every other store.
const DAMAGE: u64 = 20;
/// The room of the small stores.
const RECORDS: usize = 96;
const ROWS: usize = 12;
const MAP_ROWS: usize = 32;
/// Keys are drawn from a few, so that they meet, or from more than a transaction may write.
const FEW_KEYS: u64 = 13;
const MANY_KEYS: u64 = 50;
/// In one store of so many.
const MANY_EACH: usize = 3;
/// Times are drawn from these many below and above last.
const NEAR: u64 = 3;

/// A simple generator with a fixed start, so that each run compares the same calls.
struct Random {
    state: u64,
    /// Keys are drawn below this.
    keys: u64,
}

impl Random {
    fn below(&mut self, bound: u64) -> u64 {
        // Marsaglia's xorshift with shifts 13, 7, 17.
        self.state ^= self.state << 13;
        self.state ^= self.state >> 7;
        self.state ^= self.state << 17;
        (self.state >> u32::BITS) % bound
    }

    fn key(&mut self) -> u32 {
        self.below(self.keys) as u32
    }

    fn near(&mut self, time: u64) -> u64 {
        (time + self.below(2 * NEAR)).saturating_sub(NEAR)
    }
}

/// One call of the journal store with its arguments, so that both are called alike.
#[derive(Clone, Copy, Debug)]
enum Call {
    Begin(u64),
    Assign(u32, u32, u32),
    Add(u32, u32, u32),
    Abort(u32),
    Commit(u32, u64),
    Read(u32, u32),
    Lookup(u32, u64),
    List(u64),
    Checkpoint(u64),
    Recover(usize),
}

/// How often each kind of call is drawn, in the order of `draw`: updates often, so that stores and transactions fill
/// up; what empties them seldom.
const WEIGHTS: [u64; 10] = [5, 14, 14, 1, 4, 4, 4, 4, 1, 1];

/// A random call near the newest number and the last commit.
fn draw(random: &mut Random, next: u32, last: u64, survived: usize) -> Call {
    let n = next.saturating_sub(1 + random.below(NEAR) as u32);
    let mut left = random.below(WEIGHTS.iter().sum());
    let kind = WEIGHTS.iter().position(|&weight| {
        let drawn = left < weight;
        left = left.saturating_sub(weight);
        drawn
    });
    match kind.unwrap_or(0) {
        0 => Call::Begin(random.near(last).min(last)),
        1 => Call::Assign(n, random.key(), random.key()),
        2 => Call::Add(n, random.key(), u32::MAX - random.key()),
        3 => Call::Abort(n),
        4 => Call::Commit(n, last + random.below(NEAR)),
        5 => Call::Read(n, random.key()),
        6 => Call::Lookup(random.key(), random.near(last)),
        7 => Call::List(random.near(last)),
        8 => Call::Checkpoint(random.near(last).min(last)),
        _ => Call::Recover(survived.saturating_sub(random.below(RECORD_BYTES as u64) as usize)),
    }
}

/// What a call leaves: answer, and the rows of a list.
type Left = (Answer, [u32; ROWS], [u32; ROWS]);

fn made<H, L, C: Calls<H, L>>(call: Call, h: &mut H, l: &mut L) -> Left {
    let (mut keys, mut values) = ([0; ROWS], [0; ROWS]);
    let answer = match call {
        Call::Begin(t) => C::begin(h, l, t),
        Call::Assign(n, k, v) => C::assign(h, l, n, k, v),
        Call::Add(n, k, d) => C::add(h, l, n, k, d),
        Call::Abort(n) => C::abort(h, l, n),
        Call::Commit(n, t) => C::commit(h, l, n, t),
        Call::Read(n, k) => C::read(h, l, n, k),
        Call::Lookup(k, t) => C::lookup(h, l, k, t),
        Call::List(t) => C::list(h, l, t, &mut keys, &mut values),
        Call::Checkpoint(t) => C::checkpoint(h, l, t),
        Call::Recover(survived) => C::recover(h, l, survived),
    };
    (answer, keys, values)
}

/// Damage writes a number below this, which is as likely to be taken for a kind, a transaction or a key.
const SMALL: u64 = 6;
/// It strikes one of so many places, all but the named ones in the journal's bytes, or in the map's keys.
const JOURNAL_PLACES: u64 = 16;
const MAP_PLACES: u64 = 11;

/// A number of a journal store changed: a small one in a byte of a record, in the base or in the head.
fn damage_journal(random: &mut Random, h: &mut JournalHead, l: &mut JournalLent) {
    let small = random.below(SMALL) as u8;
    match random.below(JOURNAL_PLACES) {
        0 => h.low = u64::from(small),
        1 => h.floor = u32::from(small),
        2 => h.base_rows = usize::from(small),
        3 => l.keys[random.below(ROWS as u64) as usize] = u32::from(small),
        _ => l.journal[random.below((h.used * RECORD_BYTES).max(1) as u64) as usize] = small,
    }
}

/// The same for a map store.
fn damage_map(random: &mut Random, h: &mut MapHead, l: &mut MapLent) {
    let small = random.below(SMALL);
    let row = random.below(MAP_ROWS as u64) as usize;
    match random.below(MAP_PLACES) {
        0 => h.low = small,
        1 => h.last = small,
        2 => h.slots.occupied ^= 1 << small,
        3 => h.slots.slots[small as usize].keys[1] = h.slots.slots[small as usize].keys[0],
        4 => h.slots.slots[small as usize].count = small as usize,
        5 => l.times[row] = small,
        6 => l.marks[row] = small as u8,
        7 => h.slots.slots[small as usize].marks[0] = small as u8,
        _ => l.keys[row] = small as u32,
    }
}

fn one_journal(random: &mut Random, damaged: bool) {
    let mut lent = JournalLent { keys: vec![0; ROWS], values: vec![0; ROWS], journal: vec![0; RECORDS * RECORD_BYTES] };
    let mut head = <Proved as Calls<_, JournalLent>>::empty();
    assert_eq!(head, <Plain as Calls<_, JournalLent>>::empty());
    let (mut next, mut last) = (1, 0);
    for _ in 0..CALLS {
        if damaged && random.below(DAMAGE) == 0 {
            damage_journal(random, &mut head, &mut lent);
        }
        let call = draw(random, next, last, head.used * RECORD_BYTES);
        let (mut plain_head, mut plain_lent) = (head, lent.clone());
        let proved = made::<_, _, Proved>(call, &mut head, &mut lent);
        let plain = made::<_, _, Plain>(call, &mut plain_head, &mut plain_lent);
        assert_eq!((proved, head, &lent), (plain, plain_head, &plain_lent), "the stores differ after {call:?}");
        match (call, proved.0.number) {
            (Call::Begin(_), 0) => next = proved.0.value as u32 + 1,
            (Call::Commit(_, t), 0) => last = t,
            _ => {}
        }
    }
}

fn one_map(random: &mut Random, damaged: bool) {
    let mut lent = MapLent::of(MAP_ROWS);
    let mut head = <Proved as Calls<_, MapLent>>::empty();
    assert_eq!(head, <Plain as Calls<_, MapLent>>::empty());
    for _ in 0..CALLS {
        if damaged && random.below(DAMAGE) == 0 {
            damage_map(random, &mut head, &mut lent);
        }
        let call = draw(random, head.next, head.last, 0);
        let (mut plain_head, mut plain_lent) = (head, lent.clone());
        let proved = made::<_, _, Proved>(call, &mut head, &mut lent);
        let plain = made::<_, _, Plain>(call, &mut plain_head, &mut plain_lent);
        assert_eq!((proved, &head, &lent), (plain, &plain_head, &plain_lent), "the stores differ after {call:?}");
    }
}

/// Compares both stores; how many calls were compared.
pub fn compare() -> usize {
    let mut random = Random { state: START, keys: FEW_KEYS };
    for i in 0..STORES {
        random.keys = if i % MANY_EACH == 0 { MANY_KEYS } else { FEW_KEYS };
        one_journal(&mut random, i % 2 == 1);
        one_map(&mut random, i % 2 == 1);
    }
    2 * STORES * CALLS
}
