//! Values, and the entries of a journal, with their text.

use std::fmt;

/// The most messages that a firing takes.
pub const MEMBERS: usize = 8;

#[derive(Clone, Copy, PartialEq)]
pub struct Object {
    pub number: u16,
    pub class: u16,
}

#[derive(Clone, Copy, PartialEq)]
pub enum Value {
    Unit,
    Int(i32),
    Object(Object),
}

/// The arguments of a message or of a firing: at most three in these programs.
#[derive(Clone, Copy)]
pub struct Values {
    pub items: [Value; 3],
    pub count: u8,
}

/// The messages that a firing takes.
#[derive(Clone, Copy)]
pub struct Members {
    pub items: [u16; MEMBERS],
    pub count: u8,
}

pub enum What {
    Begun,
    Made(u16),
    Sent(Object, u8, Values),
    Called(Object, u8, Values),
    Printed(Box<str>),
    Fired(u16, Object, Members, Values),
    Ended(Value),
}

/// One cache line.
pub struct Entry {
    pub number: u32,
    pub body: u32,
    pub what: What,
}

const _: () = assert!(size_of::<Entry>() == 64);
pub const NO_OBJECT: Object = Object { number: 0, class: 0 };

impl Value {
    pub fn int(self) -> i32 {
        match self {
            Value::Int(int) => int,
            _ => 0,
        }
    }

    pub fn object(self) -> Object {
        match self {
            Value::Object(object) => object,
            _ => NO_OBJECT,
        }
    }
}

impl Values {
    pub const NONE: Values = Values { items: [Value::Unit; 3], count: 0 };

    pub fn one(value: Value) -> Values {
        Values { items: [value, Value::Unit, Value::Unit], count: 1 }
    }

    pub fn two(first: Value, second: Value) -> Values {
        Values { items: [first, second, Value::Unit], count: 2 }
    }

    pub fn three(first: Value, second: Value, third: Value) -> Values {
        Values { items: [first, second, third], count: 3 }
    }

    pub fn append(&mut self, more: &Values) {
        for value in &more.items[..more.count as usize] {
            self.items[self.count as usize] = *value;
            self.count += 1;
        }
    }
}

impl fmt::Display for Value {
    fn fmt(&self, to: &mut fmt::Formatter) -> fmt::Result {
        match self {
            Value::Unit => write!(to, "u"),
            Value::Int(int) => write!(to, "i{int}"),
            Value::Object(Object { number, class }) => write!(to, "o{number}.{class}"),
        }
    }
}

impl fmt::Display for Values {
    fn fmt(&self, to: &mut fmt::Formatter) -> fmt::Result {
        self.items[..self.count as usize].iter().try_for_each(|value| write!(to, " {value}"))
    }
}

impl fmt::Display for Members {
    fn fmt(&self, to: &mut fmt::Formatter) -> fmt::Result {
        write!(to, "{}", self.count)?;
        self.items[..self.count as usize].iter().try_for_each(|member| write!(to, " {member}"))
    }
}

impl fmt::Display for Entry {
    fn fmt(&self, to: &mut fmt::Formatter) -> fmt::Result {
        write!(to, "{} {} ", self.number, self.body)?;
        match &self.what {
            What::Begun => write!(to, "begun"),
            What::Made(class) => write!(to, "made {class}"),
            What::Sent(object, method, values) => write!(to, "sent {} {method}{values}", Value::Object(*object)),
            What::Called(object, method, values) => write!(to, "called {} {method}{values}", Value::Object(*object)),
            What::Printed(text) => text.bytes().fold(write!(to, "printed x"), |done, byte| done.and_then(|()| write!(to, "{byte:02x}"))),
            What::Fired(chord, object, members, values) => write!(to, "fired {chord} {} {members}{values}", Value::Object(*object)),
            What::Ended(value) => write!(to, "ended {value}"),
        }
    }
}
