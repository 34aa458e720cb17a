//! The workers, each at a thread, and the journal of what they drew.

use crate::bodies::{Ask, Body, CHORDS, Frame, Task};
use crate::journal::{Entry, MEMBERS, Members, Object, Value, Values, What};
use crate::table::{CLAIMED, CONSUMED, EVENTS, PENDING, Parcel, READY, STARTED, STATE, Sought, Table};
use crossbeam_deque::{Steal, Stealer, Worker as Deque};
use crossbeam_utils::{Backoff, CachePadded};
use std::process;
use std::sync::OnceLock;
use std::sync::atomic::{AtomicUsize, Ordering::SeqCst};
use std::thread::{self, Thread};
use std::time::Duration;

/// A body calls, and is called, no deeper than this before its task grows.
const FRAMES: usize = 4;
/// The first sleep of an idle worker, and how often a sleep is twice as long as the one before.
const FIRST_NAP_MICROS: u64 = 50;
const LONGER_NAPS: u32 = 5;

/// What the workers share beside the table.
struct Pool {
    table: Table,
    /// How many workers play, or look for more right after they played: where it is 0, nothing is left to play.
    working: CachePadded<AtomicUsize>,
    stealers: Vec<Stealer<u32>>,
    threads: Vec<OnceLock<Thread>>,
}

/// A message that was just armed.
#[derive(Clone, Copy)]
struct Minded {
    number: u32,
    object: Object,
    method: u8,
}

/// A firing, and the task on which its body stands on top.
type Fired = (u32, Task);

/// What came of a look for a chord: a firing; or there is nothing to fire; or another look is due.
enum Looked {
    Fired(Fired),
    Left,
    Again,
}

struct Worker<'a> {
    pool: &'a Pool,
    index: usize,
    /// The firings that it posted.
    posted: Deque<u32>,
    /// What it drew, in order.
    draws: Vec<Entry>,
    /// Tasks that are over, whose memory serves for others.
    spares: Vec<Task>,
}

impl Worker<'_> {
    fn draw_number(&self) -> u32 {
        let number = self.pool.table.counter.fetch_add(1, SeqCst);
        if number as usize >= EVENTS {
            process::exit(6);
        }
        number
    }

    fn draw(&mut self, body: u32, what: What) -> u32 {
        let number = self.draw_number();
        self.draws.push(Entry { number, body, what });
        number
    }

    /// A message for each method of a chord, for the message itself that one. Else whether one of them is in another worker's hand.
    fn gather(&self, message: Minded, own: u32, methods: &[u8], found: &mut [(u32, u32); MEMBERS]) -> Result<(), bool> {
        let table = &self.pool.table;
        for (place, &method) in found.iter_mut().zip(methods) {
            *place = if method == message.method {
                (message.number, own)
            } else {
                match table.seek(message.object, method) {
                    Sought::Found(number, word) => (number, word),
                    Sought::Bare => return Err(false),
                    Sought::Busy => return Err(true),
                }
            };
        }
        Ok(())
    }

    /// Claims these messages, or none.
    fn claim(&self, found: &[(u32, u32)]) -> bool {
        let table = &self.pool.table;
        for (at, &(number, word)) in found.iter().enumerate() {
            let claimed = word - PENDING + CLAIMED;
            if table.cell(number).compare_exchange(word, claimed, SeqCst, SeqCst).is_err() {
                for &(number, word) in found[..at].iter().rev() {
                    table.cell(number).store(word, SeqCst);
                }
                return false;
            }
        }
        true
    }

    /// Fires a chord with these messages, which are claimed: its body begins on the task of the caller among them, or on a new one.
    fn fire(&mut self, object: Object, chord: u16, found: &[(u32, u32)]) -> Fired {
        let firing = self.draw_number();
        let mut members = Members { items: [0; MEMBERS], count: found.len() as u8 };
        let (mut values, mut caller) = (Values::NONE, None);
        for (member, &(number, word)) in members.items.iter_mut().zip(found) {
            *member = number as u16;
            self.pool.table.cell(number).store(word - PENDING + CONSUMED, SeqCst);
            // Safety: this worker claimed the message.
            let parcel = unsafe { self.pool.table.take(number) };
            values.append(&parcel.values);
            caller = caller.or(parcel.task);
        }
        self.draws.push(Entry { number: firing, body: firing, what: What::Fired(chord, object, members, values) });
        let mut task = caller.or_else(|| self.spares.pop()).unwrap_or_else(|| Task::with_capacity(FRAMES));
        task.push(Frame { number: firing, body: Body::begin(object, chord, &values) });
        (firing, task)
    }

    /// Looks for a chord with the message, and fires it.
    fn look(&mut self, message: Minded) -> Looked {
        let own = self.pool.table.cell(message.number).load(SeqCst);
        match own & STATE {
            PENDING => {}
            CLAIMED => return Looked::Again,
            _ => return Looked::Left,
        }
        let mut busy = false;
        let mut found = [(0, 0); MEMBERS];
        for (chord, methods) in CHORDS[message.object.class as usize].iter().enumerate() {
            if !methods.contains(&message.method) {
                continue;
            }
            match self.gather(message, own, methods, &mut found) {
                Ok(()) => {
                    let found = &found[..methods.len()];
                    return if self.claim(found) { Looked::Fired(self.fire(message.object, chord as u16, found)) } else { Looked::Again };
                }
                Err(taken) => busy |= taken,
            }
        }
        if busy { Looked::Again } else { Looked::Left }
    }

    /// Minds a message until it is taken, or no chord with it is enabled. What was fired, if this worker fired a chord.
    fn mind(&mut self, message: Minded) -> Option<Fired> {
        let backoff = Backoff::new();
        loop {
            match self.look(message) {
                Looked::Fired(fired) => return Some(fired),
                Looked::Left => return None,
                Looked::Again => backoff.snooze(),
            }
        }
    }

    /// A firing waits to be started, by this worker or by one that steals it.
    fn post(&self, (firing, task): Fired) {
        // Safety: this worker drew the firing, and its cell is still empty.
        unsafe { self.pool.table.put(firing, Parcel { values: Values::NONE, task: Some(task) }) };
        self.pool.table.cell(firing).store(READY, SeqCst);
        self.posted.push(firing);
    }

    fn start(&self, firing: u32) -> Option<Task> {
        let cell = self.pool.table.cell(firing);
        cell.compare_exchange(READY, STARTED, SeqCst, SeqCst).expect("a firing leaves one deque once");
        // Safety: the exchange was this worker's.
        unsafe { self.pool.table.take(firing) }.task
    }

    /// Plays a task until it waits, or is over, and then what its last call fired.
    fn play(&mut self, mut task: Task) {
        let mut got = Value::Unit;
        while let Some(frame) = task.last_mut() {
            let body = frame.number;
            match frame.body.resume(got) {
                Ask::Make(class) => {
                    let number = self.draw(body, What::Made(class)) as u16;
                    got = Value::Object(Object { number, class });
                }
                Ask::Send(object, method, values) => {
                    let number = self.draw(body, What::Sent(object, method, values));
                    self.pool.table.send_off(number, object, method, Parcel { values, task: None });
                    if let Some(fired) = self.mind(Minded { number, object, method }) {
                        self.post(fired);
                    }
                    got = Value::Unit;
                }
                Ask::Call(object, method, values) => {
                    let number = self.draw(body, What::Called(object, method, values));
                    self.pool.table.send_off(number, object, method, Parcel { values, task: Some(task) });
                    match self.mind(Minded { number, object, method }) {
                        Some((_, next)) => (task, got) = (next, Value::Unit),
                        None => return,
                    }
                }
                Ask::Print(text) => {
                    self.draw(body, What::Printed(text));
                    got = Value::Unit;
                }
                Ask::End(value) => {
                    self.draw(body, What::Ended(value));
                    task.pop();
                    got = value;
                }
            }
        }
        self.spares.push(task);
    }

    /// A firing that another worker posted. A worker that is not counted among those at work is so before it takes one, so that nobody finds neither the firing
    /// nor anybody at work.
    fn steal(&self, counted: bool) -> Option<Task> {
        let (before, after) = self.pool.stealers.split_at(self.index);
        for stealer in after[1..].iter().chain(before) {
            while !stealer.is_empty() {
                if !counted {
                    self.pool.working.fetch_add(1, SeqCst);
                }
                if let Steal::Success(firing) = stealer.steal() {
                    return self.start(firing);
                }
                if !counted {
                    self.pool.working.fetch_sub(1, SeqCst);
                }
            }
        }
        None
    }

    /// Looks for a firing that another worker posts, until nobody is at work: it spins, then yields, then sleeps, a little longer each time.
    fn await_firing(&self) -> Option<Task> {
        let (backoff, mut naps) = (Backoff::new(), 0);
        loop {
            // Read before the look: who posts later is at work now, or takes what this look finds.
            let working = self.pool.working.load(SeqCst);
            if let Some(task) = self.steal(false) {
                return Some(task);
            }
            if working == 0 {
                return None;
            }
            if backoff.is_completed() {
                thread::park_timeout(Duration::from_micros(FIRST_NAP_MICROS << naps));
                naps = LONGER_NAPS.min(naps + 1);
            } else {
                backoff.snooze();
            }
        }
    }

    fn next_task(&self) -> Option<Task> {
        if let Some(firing) = self.posted.pop() {
            return self.start(firing);
        }
        self.steal(true).or_else(|| {
            self.pool.working.fetch_sub(1, SeqCst);
            self.await_firing()
        })
    }

    /// Plays this task and all others that it finds. What it drew.
    fn work(mut self, first: Option<Task>) -> Vec<Entry> {
        let _ = self.pool.threads[self.index].set(thread::current());
        let mut task = first.or_else(|| self.await_firing());
        while let Some(next) = task {
            self.play(next);
            task = self.next_task();
        }
        // who sleeps is to go too
        self.pool.threads.iter().filter_map(OnceLock::get).for_each(Thread::unpark);
        self.draws
    }
}

/// The entries of all lists in the order of their numbers, which are those below their count.
fn merged(mut lists: Vec<Vec<Entry>>) -> Vec<Entry> {
    if lists.len() == 1 {
        return lists.remove(0);
    }
    let count = lists.iter().map(Vec::len).sum();
    let mut journal: Vec<Entry> = Vec::with_capacity(count);
    let places = &mut journal.spare_capacity_mut()[..count];
    for entry in lists.into_iter().flatten() {
        let number = entry.number as usize;
        places[number].write(entry);
    }
    // Safety: the counter gave each number below the count once, so each place was written.
    unsafe { journal.set_len(count) };
    journal
}

/// Plays a program by so many workers. Its journal.
pub fn play(main: Body, workers: usize) -> Vec<Entry> {
    let deques: Vec<Deque<u32>> = (0..workers).map(|_| Deque::new_lifo()).collect();
    let pool = Pool {
        table: Table::new(),
        working: CachePadded::new(AtomicUsize::new(1)),
        stealers: deques.iter().map(Deque::stealer).collect(),
        threads: (0..workers).map(|_| OnceLock::new()).collect(),
    };
    // The first list has room for all that may be drawn, so that one worker alone never moves it; of more than one none has so many.
    let hire = |(index, posted)| {
        let room = if index == 0 { EVENTS } else { 0 };
        Worker { pool: &pool, index, posted, draws: Vec::with_capacity(room), spares: Vec::new() }
    };
    let mut hired = deques.into_iter().enumerate().map(hire);
    thread::scope(|scope| {
        let mut first = hired.next().expect("one worker at the least");
        let others: Vec<_> = hired.map(|worker| scope.spawn(move || worker.work(None))).collect();
        let number = first.draw(0, What::Begun);
        let mut lists = vec![first.work(Some(vec![Frame { number, body: main }]))];
        lists.extend(others.into_iter().map(|other| other.join().expect("a worker failed")));
        merged(lists)
    })
}
