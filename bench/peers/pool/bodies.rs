//! The bodies of the workloads, as state machines written by hand.

use crate::journal::{NO_OBJECT, Object, Value, Values};

/// A body that plays, and the number of the entry that began it.
pub struct Frame {
    pub number: u32,
    pub body: Body,
}

/// A body, on top of those that wait for it. Nobody's thread waits: a task goes with the parcel of its call.
pub type Task = Vec<Frame>;

/// What a body asks for.
pub enum Ask {
    Make(u16),
    Send(Object, u8, Values),
    Call(Object, u8, Values),
    Print(Box<str>),
    End(Value),
}

/// The variables of a `Main`.
#[derive(Default)]
pub struct Main {
    pub at: u32,
    pub objects: [Option<Object>; 3],
    pub sum: i32,
}

/// The variables of a body of `uncontended`, with a buffer of its own.
pub struct Run {
    pub at: u8,
    pub buffer: Object,
    pub i: i32,
    pub n: i32,
    pub countdown: Object,
}

/// Where a body stands, with its variables. Of those that go round n times, i is the round.
pub enum Body {
    Nothing,
    Uncontended(Main),
    Buffer(Main),
    Lock(Main),
    Santa(Main),
    Run(Run),
    Produce { buffer: Object, i: i32, n: i32 },
    Consume { buffer: Object, i: i32, n: i32, sum: i32, total: Object },
    Use { lock: Object, i: i32, n: i32, countdown: Object },
    Come { santa: Object, method: u8, i: i32, n: i32 },
    /// A message is sent, perhaps a second one without arguments, and that was all.
    Tell { to: Object, method: u8, arguments: Values, also: Option<u8>, gives: Value },
    End(Value),
}

// The classes of all workloads, and their methods.
const BOX: u16 = 0;
const COUNTDOWN: u16 = 1;
const RUNNER: u16 = 2;
const BUFFER: u16 = 3;
const TOTAL: u16 = 4;
const SIDE: u16 = 5;
const LOCK: u16 = 6;
const USER: u16 = 7;
const SANTA: u16 = 8;
const FOLK: u16 = 9;

const GET: u8 = 0; // of a box and of a buffer
const PUT: u8 = 1;
const FULL: u8 = 2;
const SPACE: u8 = 3; // `empty` of the source
const DONE: u8 = 0; // of a countdown
const LEFT: u8 = 1;
const WAIT: u8 = 2; // and of a total
const OVER: u8 = 3;
const ADD: u8 = 0; // of a total
const SUM: u8 = 1;
const ADDED: u8 = 3; // `done` of the source
const RUN: u8 = 0; // of the sides
const PRODUCE: u8 = 0;
const CONSUME: u8 = 1;
const USE: u8 = 0;
const DEER: u8 = 0;
const ELF: u8 = 1;
const READ: u8 = 0; // of a lock
const FREE: u8 = 1;
const READERS: u8 = 2;
const DONE_READING: u8 = 3;
const WRITE: u8 = 4;
const DONE_WRITING: u8 = 5;
const BACK: u8 = 0; // of Santa
const REINDEER: u8 = 1;
const ASK: u8 = 2;
const ELVES: u8 = 3;
const WAKE: u8 = 4;
const SLEIGH: u8 = 5;
const MEETING: u8 = 6;

/// The chords of each class, each as the methods of its headers.
pub const CHORDS: [&[&[u8]]; 10] = [
    &[&[GET, PUT]],
    &[&[DONE, LEFT], &[WAIT, OVER]],
    &[&[RUN]],
    &[&[PUT, SPACE], &[GET, FULL]],
    &[&[ADD, SUM], &[WAIT, ADDED]],
    &[&[PRODUCE], &[CONSUME]],
    &[&[READ, FREE], &[READ, READERS], &[DONE_READING, READERS], &[WRITE, FREE], &[DONE_WRITING]],
    &[&[USE]],
    &[&[BACK, REINDEER], &[ASK, ELVES], &[WAKE, SLEIGH], &[WAKE, MEETING]],
    &[&[DEER], &[ELF]],
];

/// What a body calls in turn, eight calls a round.
const USES: [u8; 8] = [READ, DONE_READING, READ, DONE_READING, READ, DONE_READING, WRITE, DONE_WRITING];

fn tell(to: Object, method: u8, arguments: Values) -> Body {
    Body::Tell { to, method, arguments, also: None, gives: Value::Unit }
}

/// Another one of a group has come: the last one, of this number, begins the next group and sends a message more.
fn count(to: Object, method: u8, n: i32, last: i32, also: u8) -> Body {
    if n == last {
        Body::Tell { to, method, arguments: Values::one(Value::Int(0)), also: Some(also), gives: Value::Unit }
    } else {
        tell(to, method, Values::one(Value::Int(n + 1)))
    }
}

impl Body {
    /// The body of a firing begins.
    pub fn begin(object: Object, chord: u16, values: &Values) -> Body {
        let [first, second, third] = values.items;
        let n = first.int();
        let one = |int| Values::one(Value::Int(int));
        match (object.class, chord) {
            (BOX, _) => Body::End(first),
            (COUNTDOWN, 0) if n == 1 => tell(object, OVER, Values::NONE),
            (COUNTDOWN, 0) => tell(object, LEFT, one(n - 1)),
            (RUNNER, _) => Body::Run(Run { at: 0, buffer: NO_OBJECT, i: 0, n, countdown: second.object() }),
            (BUFFER, 0) => tell(object, FULL, Values::one(first)),
            (BUFFER, _) => Body::Tell { to: object, method: SPACE, arguments: Values::NONE, also: None, gives: first },
            (TOTAL, 0) => {
                let sum = n.wrapping_add(second.int());
                match third.int() {
                    1 => tell(object, ADDED, one(sum)),
                    left => tell(object, SUM, Values::two(Value::Int(sum), Value::Int(left - 1))),
                }
            }
            (TOTAL, _) => Body::End(first),
            (SIDE, 0) => Body::Produce { buffer: first.object(), i: 0, n: second.int() },
            (SIDE, _) => Body::Consume { buffer: first.object(), i: 0, n: second.int(), sum: 0, total: third.object() },
            (LOCK, 0) => tell(object, READERS, one(1)),
            (LOCK, 1) => tell(object, READERS, one(n + 1)),
            (LOCK, 2) if n > 1 => tell(object, READERS, one(n - 1)),
            (LOCK, 2 | 4) => tell(object, FREE, Values::NONE),
            (USER, _) => Body::Use { lock: first.object(), i: 0, n: 8 * second.int(), countdown: third.object() },
            (SANTA, 0) => count(object, REINDEER, n, 8, SLEIGH),
            (SANTA, 1) => count(object, ELVES, n, 2, MEETING),
            (SANTA, 2) => Body::End(Value::Int(1)),
            (SANTA, _) => Body::End(Value::Int(0)),
            (FOLK, 0) => Body::Come { santa: first.object(), method: BACK, i: 0, n: second.int() },
            (FOLK, _) => Body::Come { santa: first.object(), method: ASK, i: 0, n: second.int() },
            _ => Body::End(Value::Unit),
        }
    }

    /// Plays on to the next ask, with what the last one gave.
    pub fn resume(&mut self, got: Value) -> Ask {
        match self {
            Body::Nothing => Ask::End(Value::Unit),
            Body::Uncontended(main) => main.uncontended(got),
            Body::Buffer(main) => main.buffer(got),
            Body::Lock(main) => main.lock(got),
            Body::Santa(main) => main.santa(got),
            Body::Run(run) => run.resume(got),
            Body::Produce { buffer, i, n } => {
                *i += 1;
                if *i <= *n { Ask::Call(*buffer, PUT, Values::one(Value::Int(*i))) } else { Ask::End(Value::Unit) }
            }
            Body::Consume { buffer, i, n, sum, total } => {
                (*i, *sum) = (*i + 1, sum.wrapping_add(got.int()));
                match *i - *n {
                    ..=0 => Ask::Call(*buffer, GET, Values::NONE),
                    1 => Ask::Send(*total, ADD, Values::one(Value::Int(*sum))),
                    _ => Ask::End(Value::Unit),
                }
            }
            Body::Use { lock, i, n, countdown } => {
                *i += 1;
                match *i - *n {
                    ..=0 => Ask::Call(*lock, USES[(*i - 1) as usize % USES.len()], Values::NONE),
                    1 => Ask::Send(*countdown, DONE, Values::NONE),
                    _ => Ask::End(Value::Unit),
                }
            }
            Body::Come { santa, method, i, n } => {
                *i += 1;
                if *i <= *n { Ask::Send(*santa, *method, Values::NONE) } else { Ask::End(Value::Unit) }
            }
            Body::Tell { to, method, arguments, also, gives } => {
                let ask = Ask::Send(*to, *method, *arguments);
                *self = match *also {
                    None => Body::End(*gives),
                    Some(method) => Body::Tell { to: *to, method, arguments: Values::NONE, also: None, gives: *gives },
                };
                ask
            }
            Body::End(value) => Ask::End(*value),
        }
    }
}

impl Run {
    fn resume(&mut self, got: Value) -> Ask {
        match self.at {
            0 => {
                self.at = 1;
                return Ask::Make(BOX);
            }
            1 => self.buffer = got.object(),
            2 => {
                self.at = 3;
                return Ask::Call(self.buffer, GET, Values::NONE);
            }
            3 => self.i = got.int() + 1,
            _ => return Ask::End(Value::Unit),
        }
        if self.i < self.n {
            self.at = 2;
            return Ask::Send(self.buffer, PUT, Values::one(Value::Int(self.i)));
        }
        self.at = 4;
        Ask::Send(self.countdown, DONE, Values::NONE)
    }
}

impl Main {
    /// The next place, and what was asked for there is kept as this object, if it is one.
    fn next(&mut self, got: Value) -> u32 {
        if let Value::Object(object) = got {
            let free = self.objects.iter_mut().find(|place| place.is_none());
            *free.expect("a Main makes three objects at most") = Some(object);
        }
        self.at += 1;
        self.at
    }

    fn object(&self, which: usize) -> Object {
        self.objects[which].unwrap_or(NO_OBJECT)
    }

    fn uncontended(&mut self, got: Value) -> Ask {
        let at = self.next(got);
        let [countdown, side] = [0, 1].map(|which| self.object(which));
        match at {
            1 => Ask::Make(COUNTDOWN),
            2 => Ask::Send(countdown, LEFT, Values::one(Value::Int(4))),
            3 => Ask::Make(RUNNER),
            4..=7 => Ask::Send(side, RUN, Values::two(Value::Int(3900), Value::Object(countdown))),
            8 => Ask::Call(countdown, WAIT, Values::NONE),
            9 => Ask::Print("done".into()),
            _ => Ask::End(Value::Unit),
        }
    }

    fn buffer(&mut self, got: Value) -> Ask {
        let at = self.next(got);
        let [buffer, total, side] = [0, 1, 2].map(|which| self.object(which));
        let n = Value::Int(2000);
        match at {
            1 => Ask::Make(BUFFER),
            2 | 3 => Ask::Send(buffer, SPACE, Values::NONE),
            4 => Ask::Make(TOTAL),
            5 => Ask::Send(total, SUM, Values::two(Value::Int(0), Value::Int(4))),
            6 => Ask::Make(SIDE),
            7..=14 if at % 2 == 1 => Ask::Send(side, PRODUCE, Values::two(Value::Object(buffer), n)),
            7..=14 => Ask::Send(side, CONSUME, Values::three(Value::Object(buffer), n, Value::Object(total))),
            15 => Ask::Call(total, WAIT, Values::NONE),
            16 => Ask::Print(got.int().to_string().into()),
            _ => Ask::End(Value::Unit),
        }
    }

    fn lock(&mut self, got: Value) -> Ask {
        let at = self.next(got);
        let [lock, countdown, side] = [0, 1, 2].map(|which| self.object(which));
        match at {
            1 => Ask::Make(LOCK),
            2 => Ask::Send(lock, FREE, Values::NONE),
            3 => Ask::Make(COUNTDOWN),
            4 => Ask::Send(countdown, LEFT, Values::one(Value::Int(8))),
            5 => Ask::Make(USER),
            6..=13 => Ask::Send(side, USE, Values::three(Value::Object(lock), Value::Int(250), Value::Object(countdown))),
            14 => Ask::Call(countdown, WAIT, Values::NONE),
            15 => Ask::Print("done".into()),
            _ => Ask::End(Value::Unit),
        }
    }

    fn santa(&mut self, got: Value) -> Ask {
        const FIRST_WAKE: u32 = 23;
        const LAST_WAKE: u32 = FIRST_WAKE + 2399;
        let at = self.next(got);
        let [santa, folk] = [0, 1].map(|which| self.object(which));
        self.sum += got.int();
        match at {
            1 => Ask::Make(SANTA),
            2 => Ask::Send(santa, REINDEER, Values::one(Value::Int(0))),
            3 => Ask::Send(santa, ELVES, Values::one(Value::Int(0))),
            4 => Ask::Make(FOLK),
            5..FIRST_WAKE => Ask::Send(folk, if at % 2 == 1 { DEER } else { ELF }, Values::two(Value::Object(santa), Value::Int(600))),
            FIRST_WAKE..=LAST_WAKE => Ask::Call(santa, WAKE, Values::NONE),
            _ if at == LAST_WAKE + 1 => Ask::Print(self.sum.to_string().into()),
            _ => Ask::End(Value::Unit),
        }
    }
}
