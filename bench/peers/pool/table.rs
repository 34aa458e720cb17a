//! The table that the workers share: each call is its atomic steps.

use crate::bodies::Task;
use crate::journal::{Object, Values};
use crossbeam_utils::CachePadded;
use std::cell::UnsafeCell;
use std::mem::MaybeUninit;
use std::slice;
use std::sync::atomic::{AtomicU32, Ordering::SeqCst};

/// The most entries of a journal.
pub const EVENTS: usize = 65_536;
/// The most methods of a class.
const METHODS: usize = 16;

/// How a message or a firing stands, in the three lowest bits of its cell. Above them stands a message's next: 0, or the number plus 1 of the message that was
/// the head of its bag when it was linked.
const EMPTY: u32 = 0;
pub const PENDING: u32 = 1;
pub const CLAIMED: u32 = 2;
pub const CONSUMED: u32 = 3;
pub const READY: u32 = 4;
pub const STARTED: u32 = 5;
pub const STATE: u32 = 7;
const NEXT_FROM: u32 = 3;

/// What a message goes with: its arguments, and if it is a call, the task that waits for it. What a posted firing goes with: its task.
pub struct Parcel {
    pub values: Values,
    pub task: Option<Task>,
}

/// What belongs to one number, in a cache line of its own, so that nobody else's numbers move it about.
#[repr(align(64))]
struct Record {
    cell: AtomicU32,
    parcel: UnsafeCell<MaybeUninit<Parcel>>,
}

/// The heads of an object's bags: 0, or a message's number plus 1.
#[repr(align(64))]
struct Heads([AtomicU32; METHODS]);

const _: () = assert!(size_of::<Record>() == 64);

pub struct Table {
    pub counter: CachePadded<AtomicU32>,
    records: &'static [Record],
    heads: &'static [Heads],
}

// A slot is written by the worker that drew its number, before it arms or posts it, and read by the one that claimed the message or got the firing: the step on
// the cell stands between the two.
unsafe impl Sync for Record {}

/// Zeroed memory in lines, fresh from the system, for as long as the process lives. Asked for with that alignment it would be cleared by hand, and all touched.
fn lines<T>(count: usize) -> &'static [T] {
    let bytes = vec![0u8; count * size_of::<T>() + align_of::<T>()].leak();
    let first = bytes.as_mut_ptr();
    // Safety: there is room for `count` behind the first aligned byte, and zeros are a valid `Record` (an empty cell, and nothing in its slot) and `Heads`.
    unsafe { slice::from_raw_parts(first.add(first.align_offset(align_of::<T>())).cast(), count) }
}

impl Table {
    pub fn new() -> Table {
        Table { counter: CachePadded::new(AtomicU32::new(0)), records: lines(EVENTS), heads: lines(EVENTS) }
    }

    pub fn cell(&self, number: u32) -> &AtomicU32 {
        &self.records[number as usize].cell
    }

    fn head(&self, object: Object, method: u8) -> &AtomicU32 {
        &self.heads[object.number as usize].0[method as usize % METHODS]
    }

    /// Safety: nobody else has this slot, and nothing is in it.
    pub unsafe fn put(&self, number: u32, parcel: Parcel) {
        unsafe { (*self.records[number as usize].parcel.get()).write(parcel) };
    }

    /// Safety: nobody else has this slot, and what was put into it was not taken.
    pub unsafe fn take(&self, number: u32) -> Parcel {
        unsafe { (*self.records[number as usize].parcel.get()).assume_init_read() }
    }

    /// A message comes to the head of its bag with its parcel, and then others may claim it.
    pub fn send_off(&self, number: u32, object: Object, method: u8, parcel: Parcel) {
        // Safety: the number was just drawn, and its cell is still empty.
        unsafe { self.put(number, parcel) };
        let next = self.head(object, method).swap(number + 1, SeqCst);
        self.cell(number).store(PENDING | next << NEXT_FROM, SeqCst);
    }

    /// Goes through a bag to the first message that is pending. Consumed messages that it meets at the head leave the bag.
    pub fn seek(&self, object: Object, method: u8) -> Sought {
        let head = self.head(object, method);
        let mut place = head.load(SeqCst);
        let (mut busy, mut at_head) = (false, true);
        while place != 0 {
            let word = self.cell(place - 1).load(SeqCst);
            let next = word >> NEXT_FROM;
            match word & STATE {
                PENDING => return Sought::Found(place - 1, word),
                // behind a message that is not armed nothing can be read
                EMPTY => return Sought::Busy,
                CONSUMED => at_head = at_head && head.compare_exchange(place, next, SeqCst, SeqCst).is_ok(),
                _ => (busy, at_head) = (true, false),
            }
            place = next;
        }
        if busy { Sought::Busy } else { Sought::Bare }
    }
}

/// What a walk through a bag came to: a pending message, with its word; or none; or none, but one that another worker has in hand, who may give it back.
pub enum Sought {
    Found(u32, u32),
    Bare,
    Busy,
}
