//! Chooses the next step of a random sequence from what the stores hold: mostly sensible, now and then wrong on purpose.

use crate::random::Random;
use crate::reference::map_rules::occupied_slots;
use crate::reference::record::SIZE;
use crate::sequences::plan::{Keys, Plan};
use crate::sequences::run::Run;
use crate::stores::call::{Call, Step, Target};
use crate::stores::cells::Room;

/// What a caller of both stores knows of them.
struct Known {
    low: u64,
    last: u64,
    running: Vec<(u32, u64)>,
    used_bytes: usize,
    mark_bytes: usize,
}

fn known(run: &Run, of_map: bool) -> Known {
    let (head, map) = (&run.journal.reference.head, &run.map.reference.head);
    let demands = run.demands.as_ref();
    let mark_bytes = demands.map_or(0, |demands| demands.mark * SIZE);
    let used_bytes = head.used * SIZE;
    match demands.and_then(|demands| demands.journal.as_ref()) {
        Some(history) if !of_map => {
            let running = history.running_numbers().zip(history.running_snapshots()).collect();
            Known { low: head.low, last: history.last().max(head.low), running, used_bytes, mark_bytes }
        }
        _ => {
            let running = occupied_slots(map).map(|slot| (slot.number, slot.snapshot)).collect();
            Known { low: map.low, last: map.last, running, used_bytes, mark_bytes }
        }
    }
}

fn key(random: &mut Random, plan: &Plan) -> u32 {
    if random.once_in(60) {
        return 0;
    }
    match &plan.keys {
        Keys::UpTo(highest) => 1 + random.below(u64::from(*highest)) as u32,
        Keys::Among(keys) => random.pick(keys),
    }
}

fn value(random: &mut Random) -> u32 {
    match random.below(8) {
        0 => 0,
        1 => u32::MAX,
        2 => u32::MAX - random.below(4) as u32,
        3 => random.bits() as u32,
        _ => random.below(100) as u32,
    }
}

/// Mostly one that runs; now and then one that does not.
fn number(random: &mut Random, known: &Known) -> u32 {
    if known.running.is_empty() || random.once_in(25) {
        let next = known.running.iter().map(|(n, _)| u64::from(*n)).max().unwrap_or(3);
        return random.pick(&[0, 1, 2, u32::MAX, u32::MAX - 1, (next + 1).min(4_294_967_295) as u32]);
    }
    random.pick(&known.running).0
}

fn time_within(random: &mut Random, known: &Known) -> u64 {
    match random.below(30) {
        0 => known.last.saturating_add(1),
        1 => known.low.saturating_sub(1),
        2 => known.low,
        3 => random.bits(),
        4..=11 => random.between(known.low, known.last),
        _ => known.last,
    }
}

fn listed_time(random: &mut Random, known: &Known) -> u64 {
    if random.once_in(12) {
        return time_within(random, known);
    }
    random.between(known.low, known.last)
}

fn commit_time(random: &mut Random, known: &Known) -> u64 {
    match random.below(40) {
        0 | 1 => known.last,
        2 => random.between(0, known.last),
        3..=8 => known.last.saturating_add(1 + random.below(5)),
        9 if random.once_in(8) => u64::MAX - random.below(2),
        10 if random.once_in(8) => random.between(known.last, u64::MAX),
        _ => known.last.saturating_add(1),
    }
}

fn checkpoint_time(random: &mut Random, known: &Known) -> u64 {
    let oldest = known.running.iter().map(|(_, snapshot)| *snapshot).min().unwrap_or(known.last);
    match random.below(12) {
        0 => time_within(random, known),
        1 => oldest.saturating_add(1),
        2 => known.low,
        3 | 4 => known.last,
        5..=7 => random.between(known.low, oldest),
        _ => oldest,
    }
}

/// Mostly a cut that section 5 allows, at any byte.
fn surviving(random: &mut Random, known: &Known) -> usize {
    let (mark, used) = (known.mark_bytes as u64, known.used_bytes as u64);
    let bytes = match random.below(24) {
        0 => random.between(0, mark),
        1 => random.between(used, used + 80),
        2 if random.once_in(3) => random.pick(&[49_152, 49_153, u64::MAX, u64::MAX / 24]),
        3..=6 => used,
        7..=10 => mark + random.between(0, (used - mark.min(used)) / 24) * 24,
        _ => random.between(mark, used),
    };
    bytes as usize
}

fn room_within(random: &mut Random, capacity: Room, now: Room) -> Room {
    let part = |random: &mut Random, whole: usize| random.between(whole as u64 / 2, whole as u64) as usize;
    let mut room = capacity;
    match random.below(6) {
        0 => room.journal = part(random, capacity.journal),
        1 => room.base = [part(random, capacity.base[0]); 2],
        2 => room.versions = [part(random, capacity.versions[0]); 4],
        3 => room.list = [part(random, capacity.list[0]); 2],
        4 => unequal_column(random, &mut room),
        _ => {}
    }
    if room == now {
        return capacity;
    }
    room
}

fn unequal_column(random: &mut Random, room: &mut Room) {
    let Room { base, versions, list, .. } = room;
    let columns = base.iter_mut().chain(versions).chain(list);
    let column = columns.into_iter().nth(random.size(8));
    column.into_iter().for_each(|length| *length = length.saturating_sub(1));
}

fn target(random: &mut Random, plan: &Plan, call: Call) -> Target {
    if plan.versions_pile_up && matches!(call, Call::Checkpoint(_)) {
        return Target::Journal;
    }
    if plan.one_alone && random.once_in(8) {
        return random.pick(&[Target::Journal, Target::Map]);
    }
    Target::Both
}

/// Where nothing runs a call that needs a transaction mostly gives way to a begin.
fn call(random: &mut Random, plan: &Plan, known: &Known) -> Call {
    let chosen = random.weighted(&plan.weights);
    let idle = known.running.is_empty() && matches!(chosen, 1 | 3..=6) && !random.once_in(4);
    if plan.filling {
        return filling_call(random, plan, known, if idle { 0 } else { chosen });
    }
    match if idle { 0 } else { chosen } {
        0 => Call::Begin(time_within(random, known)),
        1 => Call::Read(number(random, known), key(random, plan)),
        2 => Call::Lookup(key(random, plan), listed_time(random, known)),
        3 => Call::Assign(number(random, known), key(random, plan), value(random)),
        4 => Call::Add(number(random, known), key(random, plan), value(random)),
        5 => Call::Abort(number(random, known)),
        6 => Call::Commit(number(random, known), commit_time(random, known)),
        7 => Call::List(listed_time(random, known)),
        8 => Call::Checkpoint(checkpoint_time(random, known)),
        _ => Call::Recover(surviving(random, known)),
    }
}

/// Few transactions at once and no wild times, so that most calls are accepted and the rooms fill.
fn filling_call(random: &mut Random, plan: &Plan, known: &Known, chosen: usize) -> Call {
    let oldest = known.running.iter().map(|(_, snapshot)| *snapshot).min().unwrap_or(known.last);
    match chosen {
        0 if known.running.is_empty() || known.running.len() == 1 && random.once_in(5) => Call::Begin(known.last),
        1 => Call::Read(number(random, known), key(random, plan)),
        2 => Call::Lookup(key(random, plan), random.between(known.low, known.last)),
        5 => Call::Abort(number(random, known)),
        6 => Call::Commit(number(random, known), known.last.saturating_add(1 + random.below(2))),
        7 => Call::List(random.between(known.low, known.last)),
        8 => Call::Checkpoint(oldest),
        3 => Call::Assign(number(random, known), key(random, plan), value(random)),
        _ => Call::Add(number(random, known), key(random, plan), value(random)),
    }
}

pub fn next_step(random: &mut Random, plan: &Plan, run: &Run) -> Step {
    if plan.rooms_change && random.once_in(7) {
        return Step::Lend(room_within(random, plan.start.room(), run.room));
    }
    let apart = run.demands.as_ref().is_some_and(|demands| !demands.together);
    let known = known(run, apart && random.once_in(2));
    let call = call(random, plan, &known);
    Step::Ask(target(random, plan, call), call)
}

/// At the end of a sequence both stores list at low, at last and between.
pub fn closing_steps(random: &mut Random, run: &Run) -> Vec<Step> {
    let known = known(run, false);
    let times = [known.low, random.between(known.low, known.last), known.last];
    times.into_iter().map(|t| Step::Ask(Target::Both, Call::List(t))).collect()
}
