//! How much stack the library's calls take: each is made on a full store, in a thread whose stack was painted before.

use super::fixture::{JournalStore, MapStore, TRANSACTION_RECORDS, TRANSACTION_VERSIONS};
use crate::report::table::{figure, Table};
use crate::stores::{Calls, Proved};
use registers::limits::{BASE_ROWS, JOURNAL_RECORDS, RECORD_BYTES, VERSION_ROWS};
use registers::Answer;
use std::alloc::{alloc, dealloc, Layout};
use std::ffi::{c_int, c_void};
use std::ptr::null_mut;

/// The stack of the thread, far more than a call takes.
const STACK: usize = 1 << 20;
const PAGE: usize = 4096;
/// What the stack is painted with.
const PAINT: u8 = 0xA5;

/// Room for C's attributes of a thread.
#[repr(C, align(16))]
struct Attributes([u8; 128]);

extern "C" {
    fn pthread_attr_init(attributes: *mut Attributes) -> c_int;
    fn pthread_attr_setstack(attributes: *mut Attributes, stack: *mut u8, size: usize) -> c_int;
    fn pthread_create(
        thread: *mut usize,
        attributes: *const Attributes,
        start: extern "C" fn(*mut c_void) -> *mut c_void,
        argument: *mut c_void,
    ) -> c_int;
    fn pthread_join(thread: usize, result: *mut *mut c_void) -> c_int;
}

extern "C" fn start(call: *mut c_void) -> *mut c_void {
    // SAFETY: `painted` hands over a pointer to the call, and waits for this thread.
    let call = unsafe { &mut *call.cast::<&mut dyn FnMut()>() };
    call();
    null_mut()
}

/// How many bytes of a painted stack a thread that makes the call changes.
fn painted(mut call: &mut dyn FnMut()) -> usize {
    let layout = Layout::from_size_align(STACK, PAGE).expect("a stack's size");
    // SAFETY: the stack lives until the thread has ended, and is read only then.
    unsafe {
        let stack = alloc(layout);
        assert!(!stack.is_null(), "no memory for a stack");
        stack.write_bytes(PAINT, STACK);
        let mut attributes = Attributes([0; 128]);
        let mut thread = 0;
        let argument = (&raw mut call).cast();
        assert_eq!(pthread_attr_init(&mut attributes), 0);
        assert_eq!(pthread_attr_setstack(&mut attributes, stack, STACK), 0);
        assert_eq!(pthread_create(&mut thread, &attributes, start, argument), 0);
        assert_eq!(pthread_join(thread, null_mut()), 0);
        let untouched = std::slice::from_raw_parts(stack, STACK).iter().take_while(|&&byte| byte == PAINT).count();
        dealloc(stack, layout);
        STACK - untouched
    }
}

/// The stack of a call, less that of the thread itself.
fn used(mut call: impl FnMut()) -> String {
    figure((painted(&mut call) - painted(&mut || {})) as f64)
}

/// A store in which a transaction runs, and the times that its calls are given.
struct Full<H, L> {
    head: H,
    lent: L,
    running: u32,
    low: u64,
    last: u64,
}

impl<H: Copy, L: Clone> Full<H, L>
where
    Proved: Calls<H, L>,
{
    fn stack(&self, call: impl Fn(&mut H, &mut L) -> Answer) -> String {
        let (mut head, mut lent) = (self.head, self.lent.clone());
        used(|| {
            call(&mut head, &mut lent);
        })
    }

    /// The stack of each call in the order of the names. The list goes into columns with just its rows, so that it is
    /// made aside.
    fn stacks(&self) -> [String; NAMES.len()] {
        let (n, low, last) = (self.running, self.low, self.last);
        [
            self.stack(|h, l| Proved::begin(h, l, last)),
            self.stack(|h, l| Proved::add(h, l, n, 1, 1)),
            self.stack(|h, l| Proved::read(h, l, n, 1)),
            self.stack(|h, l| Proved::commit(h, l, n, last + 1)),
            self.stack(|h, l| Proved::abort(h, l, n)),
            self.stack(|h, l| Proved::lookup(h, l, 1, last)),
            self.stack(|h, l| Proved::list(h, l, last, &mut vec![0; BASE_ROWS], &mut vec![0; BASE_ROWS])),
            self.stack(|h, l| Proved::checkpoint(h, l, low)),
        ]
    }
}

const NAMES: [&str; 8] = ["begin", "update", "read", "commit", "abort", "lookup", "list", "checkpoint"];

/// Two registers that nobody has written, so that a commit with an old snapshot meets no conflict.
const FRESH: (u32, u32) = (BASE_ROWS as u32 + 1, BASE_ROWS as u32 + 2);

pub fn print() {
    let mut s = JournalStore::filled(BASE_ROWS, JOURNAL_RECORDS / TRANSACTION_RECORDS - 1);
    let survived = s.head.used * RECORD_BYTES;
    let running = s.updated(s.head.low, FRESH.0, FRESH.1);
    let journal = Full { head: s.head, lent: s.lent, running, low: s.head.low, last: s.last };
    let mut s = MapStore::filled(BASE_ROWS, VERSION_ROWS / TRANSACTION_VERSIONS - 1);
    let running = s.updated(s.head.low, FRESH.0, FRESH.1);
    let map = Full { head: s.head, lent: s.lent, running, low: s.head.low, last: s.head.last };
    let mut table = Table::new(&["bytes", "journal store", "map store"]);
    for ((name, journal), map) in NAMES.iter().zip(journal.stacks()).zip(map.stacks()) {
        table.row(vec![name.to_string(), journal, map]);
    }
    let recover = journal.stack(|h, l| Proved::recover(h, l, survived));
    table.row(vec!["recover".to_string(), recover, "none".to_string()]);
    table.print();
}
