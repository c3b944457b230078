//! Names, operands, and what a machine says of a call.

use crate::ffi::JgValue;
use crate::numbers::{
    BUFFER, CLASS, ENVIRONMENT, GLOBAL, ID, ITEMS, LIST, LOCAL, NAME, NATIVE, NOTHING, NULL,
    NUMBER, OBJECT, THREW, WEAK, WIDE, WORD,
};
use std::fmt;

pub(crate) const fn value(kind: u32, detail: u32, number: u64) -> JgValue {
    JgValue {
        kind,
        detail,
        number,
    }
}

/// Nothing: no environment, no name.
pub(crate) const NONE: JgValue = value(NOTHING, 0, 0);

/// `NULL`.
pub(crate) const NO_OBJECT: JgValue = value(NULL, 0, 0);

/// The kind of a reference.
#[derive(Clone, Copy, Debug, PartialEq, Eq, Hash)]
#[repr(u32)]
pub enum Kind {
    /// A local reference.
    Local = LOCAL,
    /// A global one.
    Global = GLOBAL,
    /// A weak global one.
    Weak = WEAK,
}

impl Kind {
    /// The kind of this number in `jg.h`.
    pub(crate) fn of_number(number: u32) -> Option<Kind> {
        match number {
            LOCAL => Some(Kind::Local),
            GLOBAL => Some(Kind::Global),
            WEAK => Some(Kind::Weak),
            _ => None,
        }
    }
}

/// The name of a reference.
#[derive(Clone, Copy, Debug, PartialEq, Eq, Hash)]
pub enum Reference {
    /// `NULL`.
    Null,
    /// The reference of this kind that the thread `maker` was handed as its reference of this number.
    To {
        /// What kind it is of.
        kind: Kind,
        /// The thread that it was handed to.
        maker: u16,
        /// Its number, among all references of that thread.
        number: u64,
    },
}

impl Reference {
    /// The local reference of this number: `L1.2` is `Reference::local(1, 2)`.
    pub const fn local(maker: u16, number: u64) -> Reference {
        let kind = Kind::Local;
        Reference::To {
            kind,
            maker,
            number,
        }
    }

    /// The reference that the value names, if it names one.
    pub(crate) fn of(value: JgValue) -> Option<Reference> {
        if value.kind == NULL {
            return Some(Reference::Null);
        }
        Some(Reference::To {
            kind: Kind::of_number(value.kind)?,
            maker: u16::try_from(value.detail).ok()?,
            number: value.number,
        })
    }

    pub(crate) fn value(self) -> JgValue {
        match self {
            Reference::Null => NO_OBJECT,
            Reference::To {
                kind,
                maker,
                number,
            } => value(kind as u32, u32::from(maker), number),
        }
    }
}

impl fmt::Display for Reference {
    fn fmt(&self, out: &mut fmt::Formatter<'_>) -> fmt::Result {
        match self {
            Reference::Null => out.write_str("null"),
            Reference::To {
                kind,
                maker,
                number,
            } => {
                let letter = match kind {
                    Kind::Local => 'L',
                    Kind::Global => 'G',
                    Kind::Weak => 'W',
                };
                write!(out, "{letter}{maker}.{number}")
            }
        }
    }
}

/// The name of a buffer: the thread that it was lent to, and its number.
#[derive(Clone, Copy, Debug, PartialEq, Eq, Hash)]
pub struct Buffer {
    /// The thread that it was lent to.
    pub maker: u16,
    /// Its number, among all buffers of that thread.
    pub number: u64,
}

impl Buffer {
    /// The buffer that the value names, if it names one.
    pub(crate) fn of(value: JgValue) -> Option<Buffer> {
        let maker = u16::try_from(value.detail).ok()?;
        (value.kind == BUFFER).then_some(Buffer {
            maker,
            number: value.number,
        })
    }

    pub(crate) fn value(self) -> JgValue {
        value(BUFFER, u32::from(self.maker), self.number)
    }
}

impl fmt::Display for Buffer {
    fn fmt(&self, out: &mut fmt::Formatter<'_>) -> fmt::Result {
        write!(out, "B{}.{}", self.maker, self.number)
    }
}

/// The environment of a thread's session.
#[derive(Clone, Copy, Debug, PartialEq, Eq, Hash)]
pub struct Environment {
    /// Its thread.
    pub thread: u16,
    /// The number of its session, counted from 1.
    pub session: u64,
}

impl Environment {
    /// The environment that the value names, if it names one.
    pub(crate) fn of(value: JgValue) -> Option<Environment> {
        let thread = u16::try_from(value.detail).ok()?;
        (value.kind == ENVIRONMENT).then_some(Environment {
            thread,
            session: value.number,
        })
    }

    pub(crate) fn value(self) -> JgValue {
        value(ENVIRONMENT, u32::from(self.thread), self.session)
    }
}

impl fmt::Display for Environment {
    fn fmt(&self, out: &mut fmt::Formatter<'_>) -> fmt::Result {
        write!(out, "E{}.{}", self.thread, self.session)
    }
}

/// An object, by its number.
#[derive(Clone, Copy, Debug, PartialEq, Eq, Hash)]
#[repr(transparent)]
pub struct Object(pub u64);

impl Object {
    /// The object that the value names, if it names one.
    pub(crate) fn of(value: JgValue) -> Option<Object> {
        (value.kind == OBJECT).then_some(Object(value.number))
    }

    pub(crate) fn value(self) -> JgValue {
        value(OBJECT, 0, self.0)
    }
}

impl fmt::Display for Object {
    fn fmt(&self, out: &mut fmt::Formatter<'_>) -> fmt::Result {
        write!(out, "O{}", self.0)
    }
}

/// The value of an object, or of none.
pub(crate) fn kept(object: Option<Object>) -> JgValue {
    object.map_or(NO_OBJECT, Object::value)
}

/// An operand of a question. The table of functions says which sorts a function takes ([`Function`](crate::Function)).
#[derive(Clone, Copy, Debug, PartialEq, Eq)]
#[repr(transparent)]
pub struct Value(JgValue);

impl Value {
    /// A number that a rule bounds: a capacity, a length, a count, a mode, an index of a buffer.
    pub const fn number(number: i32) -> Value {
        Value(value(NUMBER, 0, number as i64 as u64))
    }

    /// Any other number: a JNI version, an index, a length of a direct buffer.
    pub const fn any_number(number: i64) -> Value {
        let is_narrow = i32::MIN as i64 <= number && number <= i32::MAX as i64;
        Value(value(if is_narrow { NUMBER } else { WIDE }, 0, number as u64))
    }

    /// A value of a field or an item; of a float and a double its bits.
    pub const fn item(bits: i64) -> Value {
        Value(value(WIDE, 0, bits as u64))
    }

    /// The ID of a field or a method: whether it fits the object, the function's type, and static or not.
    pub const fn id(fits: bool) -> Value {
        Value(value(ID, fits as u32, 0))
    }

    /// The name of the class of this number, or of one that the setup doesn't state.
    pub fn class(number: Option<u32>) -> Value {
        Value(value(
            CLASS,
            number.is_some().into(),
            number.unwrap_or(0).into(),
        ))
    }

    /// The native method of this number in its class, counted from 1, or one that the setup doesn't state.
    pub fn native(number: Option<u32>) -> Value {
        Value(value(
            NATIVE,
            number.is_some().into(),
            number.unwrap_or(0).into(),
        ))
    }

    /// A handle of the machine, of which 0 is `NULL`: an operand of a question to a [`Witness`](crate::Witness) alone.
    pub const fn word(word: u64) -> Value {
        Value(value(WORD, 0, word))
    }

    /// A name of which no rule speaks, whatever it is.
    pub const fn name() -> Value {
        Value(value(NAME, 0, 0))
    }

    /// A list of so many items, and whether each is of its type. In `NewString` one of more than 2^31 - 1 items breaks
    /// rule 12, since no jsize counts so many. No rule speaks of how many items the lists of other functions have.
    pub const fn list(count: u64, fits: bool) -> Value {
        Value(value(LIST, fits as u32, count))
    }
}

impl From<Reference> for Value {
    fn from(reference: Reference) -> Value {
        Value(reference.value())
    }
}

impl From<Buffer> for Value {
    fn from(buffer: Buffer) -> Value {
        Value(buffer.value())
    }
}

/// What a machine says of a call that returned.
#[derive(Clone, Copy, Debug, PartialEq, Eq)]
#[non_exhaustive]
pub enum Says {
    /// It was done.
    Done,
    /// It answered `NULL`.
    Null,
    /// It answered a reference to this object, which was met before.
    Object(Object),
    /// It lent a buffer of so many items.
    Items(u32),
    /// It threw this object, which was met before.
    Threw(Object),
}

impl Says {
    pub(crate) fn value(self) -> JgValue {
        match self {
            Says::Done => NONE,
            Says::Null => NO_OBJECT,
            Says::Object(object) => object.value(),
            Says::Items(count) => value(ITEMS, 0, u64::from(count)),
            Says::Threw(object) => value(THREW, 0, object.0),
        }
    }
}

/// The name of what a call or a fact handed out.
#[derive(Clone, Copy, Debug, PartialEq, Eq)]
#[non_exhaustive]
pub enum Given {
    /// Nothing.
    Nothing,
    /// A reference; `NULL` isn't handed out.
    Reference(Reference),
    /// A buffer.
    Buffer(Buffer),
    /// The environment of a session that begins.
    Environment(Environment),
    /// An object that was met.
    Object(Object),
}

impl Given {
    /// What the library wrote; nothing where that is no name.
    pub(crate) fn of(given: JgValue) -> Given {
        let name = match given.kind {
            LOCAL | GLOBAL | WEAK => Reference::of(given).map(Given::Reference),
            BUFFER => Buffer::of(given).map(Given::Buffer),
            ENVIRONMENT => Environment::of(given).map(Given::Environment),
            _ => Object::of(given).map(Given::Object),
        };
        name.unwrap_or(Given::Nothing)
    }
}

#[cfg(test)]
mod tests {
    use super::*;

    #[test]
    fn numbers_are_extended_by_their_sign() {
        assert_eq!(Value::number(-1).0.number, u64::MAX);
        assert_eq!(Value::number(i32::MAX).0.number, 2_147_483_647);
        assert_eq!(Value::any_number(i64::MIN).0.number, 1 << 63);
        assert_eq!(Value::any_number(-1), Value::number(-1));
        assert_ne!(Value::item(-1), Value::number(-1));
    }

    #[test]
    fn names_come_back() {
        let reference = Reference::local(1, 2);
        assert_eq!(Given::of(reference.value()), Given::Reference(reference));
        let buffer = Buffer {
            maker: 65_535,
            number: u64::MAX,
        };
        assert_eq!(Given::of(buffer.value()), Given::Buffer(buffer));
        assert_eq!(Given::of(Object(15).value()), Given::Object(Object(15)));
        assert_eq!(Given::of(NONE), Given::Nothing);
    }

    #[test]
    fn names_are_spelt_as_in_records() {
        assert_eq!(Reference::local(1, 2).to_string(), "L1.2");
        assert_eq!(Reference::Null.to_string(), "null");
        assert_eq!(Object(15).to_string(), "O15");
    }
}
