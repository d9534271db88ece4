//! Nanoseconds a call: the best of many samples, since whatever else the machine does can only make a sample longer.

use std::ffi::{c_int, c_long};
use std::time::{Duration, Instant};

/// A sample this long or longer is taken in processor time: it would hardly ever be left alone by others from its start
/// to its end. A shorter one is taken by the wall clock, which is read faster.
const LONG: Duration = Duration::from_millis(1);
/// CLOCK_THREAD_CPUTIME_ID of Linux.
const THREAD_TIME: c_int = 3;

/// C's timespec.
#[repr(C)]
struct Timespec {
    seconds: i64,
    nanoseconds: c_long,
}

unsafe extern "C" {
    fn clock_gettime(clock: c_int, time: *mut Timespec) -> c_int;
}

/// The processor time that this thread has used.
fn processor_time() -> Duration {
    let mut time = Timespec { seconds: 0, nanoseconds: 0 };
    let answer = unsafe { clock_gettime(THREAD_TIME, &mut time) };
    assert_eq!(answer, 0, "there is no clock for the thread's time");
    Duration::new(time.seconds as u64, time.nanoseconds as u32)
}

/// A stopwatch.
pub struct Watch {
    processor: Duration,
    wall: Instant,
}

impl Watch {
    pub fn start() -> Self {
        let processor = processor_time();
        Watch { processor, wall: Instant::now() }
    }

    pub fn elapsed(&self) -> Duration {
        let wall = self.wall.elapsed();
        if wall < LONG {
            return wall;
        }
        wall.min(processor_time() - self.processor)
    }
}

/// How long a call is sampled in a round, restoring included.
const BUDGET: Duration = Duration::from_millis(40);
/// How many samples a round takes at the least, of the calls that take longer than that.
pub const SAMPLES: usize = 3;
/// In how many rounds all calls are timed, one after the other, so that a busy spell of the machine does not meet all
/// samples of one call.
pub const ROUNDS: usize = 4;
/// A sample of quick calls is repeated until it takes this long, so that reading the clock does not count.
const SAMPLE: Duration = Duration::from_micros(20);
/// How many calls a sample has at the most.
const MOST_CALLS: u128 = 4096;

/// The best of the samples that `sample` gives within the budget, after one to warm up.
fn best_of(mut sample: impl FnMut() -> Duration) -> Duration {
    sample();
    let started = Instant::now();
    let mut best = Duration::MAX;
    let mut count = 0;
    while count < SAMPLES || started.elapsed() < BUDGET {
        best = best.min(sample());
        count += 1;
    }
    best
}

fn nanoseconds(d: Duration, calls: usize) -> f64 {
    d.as_nanos() as f64 / calls as f64
}

/// A call that repeats the same work as often as it is made; it is told how often it was made before.
pub fn repeated(mut call: impl FnMut(usize)) -> f64 {
    let started = Instant::now();
    call(0);
    let once = started.elapsed().as_nanos().max(1);
    let calls = (SAMPLE.as_nanos() / once).clamp(1, MOST_CALLS) as usize;
    let mut made = 0;
    let best = best_of(|| {
        let started = Watch::start();
        for i in made..made + calls {
            call(i);
        }
        let took = started.elapsed();
        made += calls;
        took
    });
    nanoseconds(best, calls)
}

/// A call that changes what it works on: a sample is one call on each of several copies, which `restore` makes good
/// outside the time taken.
pub fn restored<T>(copies: &mut [T], mut restore: impl FnMut(&mut T), mut call: impl FnMut(&mut T)) -> f64 {
    let best = best_of(|| {
        copies.iter_mut().for_each(&mut restore);
        let started = Watch::start();
        copies.iter_mut().for_each(&mut call);
        started.elapsed()
    });
    nanoseconds(best, copies.len())
}
