//! Facts: what a machine says is so.

use crate::ffi::{JgFact, JgValue};
use crate::numbers::{
    self, BEGINS, CALMED, ENDS, ENSURED, ENTERS, FREED, GAVE, GONE, GOT, IS_LENGTH, IS_LOCAL,
    IS_PENDING, LEAVES, LENT, LINKED, LOST, MET, NOTHING, OWNS, POPPED, PUSHED, RAISED, UNLINKED,
    WARNED,
};
use crate::value::{kept, value, Buffer, Kind, Object, Reference, NONE, NO_OBJECT};

/// A family of buffers, by the functions that lend and release them.
#[derive(Clone, Copy, Debug, PartialEq, Eq, Hash)]
#[repr(u32)]
pub enum Family {
    /// Of `GetBooleanArrayElements`.
    Booleans = numbers::BOOLEANS,
    /// Of `GetByteArrayElements`.
    Bytes = numbers::BYTES,
    /// Of `GetCharArrayElements`.
    Chars = numbers::CHARS,
    /// Of `GetShortArrayElements`.
    Shorts = numbers::SHORTS,
    /// Of `GetIntArrayElements`.
    Ints = numbers::INTS,
    /// Of `GetLongArrayElements`.
    Longs = numbers::LONGS,
    /// Of `GetFloatArrayElements`.
    Floats = numbers::FLOATS,
    /// Of `GetDoubleArrayElements`.
    Doubles = numbers::DOUBLES,
    /// Of `GetStringChars`.
    String = numbers::STRING,
    /// Of `GetStringUTFChars`.
    Utf = numbers::UTF,
    /// Of `GetPrimitiveArrayCritical`.
    Critical = numbers::CRITICAL,
    /// Of `GetStringCritical`.
    CriticalString = numbers::CRITICAL_STRING,
}

impl Family {
    /// All families, each at the place of its number.
    pub const ALL: [Family; 12] = [
        Family::Booleans,
        Family::Bytes,
        Family::Chars,
        Family::Shorts,
        Family::Ints,
        Family::Longs,
        Family::Floats,
        Family::Doubles,
        Family::String,
        Family::Utf,
        Family::Critical,
        Family::CriticalString,
    ];

    fn of_number(number: u32) -> Option<Family> {
        Family::ALL.into_iter().find(|it| *it as u32 == number)
    }
}

/// A kind of objects whose class no setup states ([`Core::class_of`](crate::Core::class_of)).
#[derive(Clone, Copy, Debug, PartialEq, Eq, Hash)]
#[repr(u32)]
#[non_exhaustive]
pub enum ObjectKind {
    /// Of none of the other kinds.
    Object = numbers::KIND_OBJECT,
    /// It can be thrown.
    Throwable = numbers::KIND_THROWABLE,
    /// A class object, of a class that is no array's.
    Class = numbers::KIND_CLASS,
    /// A class object, of an array's class.
    ArrayClass = numbers::KIND_ARRAY_CLASS,
    /// An array of float.
    Floats = numbers::KIND_FLOATS,
    /// An array of double.
    Doubles = numbers::KIND_DOUBLES,
    /// An array of references, a `String[]` too. Who meets one as [`ObjectKind::Object`] gets false denials of rule 9
    /// ([`Rule::WrongType`](crate::Rule::WrongType)).
    Objects = numbers::KIND_OBJECTS,
}

/// What a machine says is so (docs/FORMATS.md, "A fact"). `thread` is the thread that it is of; where the other fields
/// say it all, it is who tells it, and may be 0.
#[derive(Clone, Copy, Debug, PartialEq, Eq)]
#[allow(missing_docs)]
#[non_exhaustive]
pub enum Fact {
    /// A session of the thread begins. The core gives its environment.
    Begins { thread: u16 },
    /// It ends, with all that is open in it.
    Ends { thread: u16 },
    /// The thread enters a native method.
    Enters { thread: u16 },
    /// It leaves it. `kept` is `None` where Java called it, else the object that native code is handed.
    Leaves { thread: u16, kept: Option<Object> },
    /// It pushed a frame with so much room.
    Pushed { thread: u16, room: u32 },
    /// It popped a frame, and kept the object.
    Popped { thread: u16, kept: Option<Object> },
    /// Its newest frame has so much more room.
    Ensured { thread: u16, room: u32 },
    /// The object is pending in it as its exception.
    Raised { thread: u16, object: Object },
    /// Nothing is.
    Calmed { thread: u16 },
    /// It was handed a reference to the object. The core gives its name.
    Got {
        thread: u16,
        kind: Kind,
        object: Object,
    },
    /// The reference ended.
    Lost { thread: u16, reference: Reference },
    /// It was lent a buffer. `by` is the reference that a critical one was asked for by, else `NULL`.
    Lent {
        thread: u16,
        family: Family,
        object: Object,
        by: Reference,
        length: u32,
    },
    /// The buffer was given back.
    Gave { thread: u16, buffer: Buffer },
    /// It entered the object's monitor.
    Owns { thread: u16, object: Object },
    /// It exited it.
    Freed { thread: u16, object: Object },
    /// There is a next object, of the class and so long. The core gives its number.
    Met {
        thread: u16,
        class: u32,
        length: u32,
    },
    /// The collector let the object go.
    Gone { thread: u16, object: Object },
    /// The native method of the class is linked, by their numbers.
    Linked {
        thread: u16,
        class: u32,
        native: u32,
    },
    /// None of its native methods is.
    Unlinked { thread: u16, class: u32 },
    /// The module was warned of.
    Warned { thread: u16, module: u32 },
    /// The thread's local reference of this number names the object, or nothing.
    IsLocal {
        thread: u16,
        number: u64,
        object: Option<Object>,
    },
    /// The object is pending in the thread, or nothing is.
    IsPending { thread: u16, object: Option<Object> },
    /// The object is so long.
    IsLength {
        thread: u16,
        object: Object,
        length: u32,
    },
}

/// A fact of these numbers.
fn fact(word: u32, thread: u16, name: JgValue, object: JgValue, numbers: (u32, u32)) -> JgFact {
    JgFact {
        word,
        thread: u32::from(thread),
        name,
        object,
        first: numbers.0,
        second: numbers.1,
    }
}

/// A fact of a thread and two numbers, which may be 0.
fn plain(word: u32, thread: u16, first: u32, second: u32) -> JgFact {
    fact(word, thread, NONE, NO_OBJECT, (first, second))
}

fn with_object(word: u32, thread: u16, object: Option<Object>) -> JgFact {
    fact(word, thread, NONE, kept(object), (0, 0))
}

impl Fact {
    /// The numbers of the fact, as `jg.h` has them.
    pub(crate) fn numbers(self) -> JgFact {
        match self {
            Fact::Begins { thread } => plain(BEGINS, thread, 0, 0),
            Fact::Ends { thread } => plain(ENDS, thread, 0, 0),
            Fact::Enters { thread } => plain(ENTERS, thread, 0, 0),
            Fact::Leaves { thread, kept } => with_object(LEAVES, thread, kept),
            Fact::Pushed { thread, room } => plain(PUSHED, thread, room, 0),
            Fact::Popped { thread, kept } => with_object(POPPED, thread, kept),
            Fact::Ensured { thread, room } => plain(ENSURED, thread, room, 0),
            Fact::Raised { thread, object } => with_object(RAISED, thread, Some(object)),
            Fact::Calmed { thread } => plain(CALMED, thread, 0, 0),
            Fact::Owns { thread, object } => with_object(OWNS, thread, Some(object)),
            Fact::Freed { thread, object } => with_object(FREED, thread, Some(object)),
            Fact::Gone { thread, object } => with_object(GONE, thread, Some(object)),
            Fact::Unlinked { thread, class } => plain(UNLINKED, thread, class, 0),
            Fact::Warned { thread, module } => plain(WARNED, thread, module, 0),
            Fact::IsPending { thread, object } => with_object(IS_PENDING, thread, object),
            _ => self.more_numbers(),
        }
    }

    /// The numbers of a fact of a reference, a buffer or a class, or of one that is compared.
    fn more_numbers(self) -> JgFact {
        match self {
            Fact::Met {
                thread,
                class,
                length,
            } => plain(MET, thread, class, length),
            Fact::Linked {
                thread,
                class,
                native,
            } => plain(LINKED, thread, class, native),
            Fact::IsLocal {
                thread,
                number,
                object,
            } => fact(
                IS_LOCAL,
                thread,
                value(NOTHING, 0, number),
                kept(object),
                (0, 0),
            ),
            Fact::IsLength {
                thread,
                object,
                length,
            } => fact(IS_LENGTH, thread, NONE, object.value(), (0, length)),
            _ => self.name_numbers(),
        }
    }

    fn name_numbers(self) -> JgFact {
        match self {
            Fact::Got {
                thread,
                kind,
                object,
            } => fact(GOT, thread, NONE, object.value(), (kind as u32, 0)),
            Fact::Lost { thread, reference } => {
                fact(LOST, thread, reference.value(), NO_OBJECT, (0, 0))
            }
            Fact::Lent {
                thread,
                family,
                object,
                by,
                length,
            } => fact(
                LENT,
                thread,
                by.value(),
                object.value(),
                (family as u32, length),
            ),
            Fact::Gave { thread, buffer } => fact(GAVE, thread, buffer.value(), NO_OBJECT, (0, 0)),
            _ => plain(0, 0, 0, 0),
        }
    }

    /// The fact of these numbers, if they state one.
    pub(crate) fn of(fact: JgFact) -> Option<Fact> {
        let thread = u16::try_from(fact.thread).ok()?;
        match fact.word {
            BEGINS => Some(Fact::Begins { thread }),
            ENDS => Some(Fact::Ends { thread }),
            ENTERS => Some(Fact::Enters { thread }),
            LEAVES => Some(Fact::Leaves {
                thread,
                kept: Object::of(fact.object),
            }),
            PUSHED => Some(Fact::Pushed {
                thread,
                room: fact.first,
            }),
            POPPED => Some(Fact::Popped {
                thread,
                kept: Object::of(fact.object),
            }),
            ENSURED => Some(Fact::Ensured {
                thread,
                room: fact.first,
            }),
            CALMED => Some(Fact::Calmed { thread }),
            IS_PENDING => Some(Fact::IsPending {
                thread,
                object: Object::of(fact.object),
            }),
            IS_LOCAL => Some(Fact::IsLocal {
                thread,
                number: fact.name.number,
                object: Object::of(fact.object),
            }),
            LOST | GAVE => Fact::of_name(fact, thread),
            MET | LINKED | UNLINKED | WARNED => Some(Fact::of_class(fact, thread)),
            _ => Fact::of_object(fact, thread, Object::of(fact.object)?),
        }
    }

    /// The fact of a reference or a buffer.
    fn of_name(fact: JgFact, thread: u16) -> Option<Fact> {
        match fact.word {
            LOST => Reference::of(fact.name).map(|reference| Fact::Lost { thread, reference }),
            _ => Buffer::of(fact.name).map(|buffer| Fact::Gave { thread, buffer }),
        }
    }

    /// The fact of a class or a module.
    fn of_class(fact: JgFact, thread: u16) -> Fact {
        let class = fact.first;
        match fact.word {
            MET => Fact::Met {
                thread,
                class,
                length: fact.second,
            },
            LINKED => Fact::Linked {
                thread,
                class,
                native: fact.second,
            },
            UNLINKED => Fact::Unlinked { thread, class },
            _ => Fact::Warned {
                thread,
                module: class,
            },
        }
    }

    /// The fact of an object.
    fn of_object(fact: JgFact, thread: u16, object: Object) -> Option<Fact> {
        match fact.word {
            RAISED => Some(Fact::Raised { thread, object }),
            GOT => Some(Fact::Got {
                thread,
                kind: Kind::of_number(fact.first)?,
                object,
            }),
            LENT => Some(Fact::Lent {
                thread,
                family: Family::of_number(fact.first)?,
                object,
                by: Reference::of(fact.name)?,
                length: fact.second,
            }),
            OWNS => Some(Fact::Owns { thread, object }),
            FREED => Some(Fact::Freed { thread, object }),
            GONE => Some(Fact::Gone { thread, object }),
            IS_LENGTH => Some(Fact::IsLength {
                thread,
                object,
                length: fact.second,
            }),
            _ => None,
        }
    }
}

#[cfg(test)]
mod tests {
    use super::*;

    const FIELDS: JgFact = JgFact {
        word: 0,
        thread: 7,
        name: NONE,
        object: value(numbers::OBJECT, 0, 15),
        first: 2,
        second: 5,
    };

    #[test]
    fn numbers_come_back() {
        for word in BEGINS..=IS_LENGTH {
            let name = match word {
                GAVE => value(numbers::BUFFER, 1, 2),
                _ => value(numbers::LOCAL, 1, 2),
            };
            let stated = Fact::of(JgFact {
                word,
                name,
                ..FIELDS
            })
            .expect("the numbers state a fact");
            assert_eq!(stated.numbers().word, word);
            assert_eq!(Fact::of(stated.numbers()), Some(stated));
        }
    }

    #[test]
    fn other_numbers_state_no_fact() {
        let far = JgFact {
            word: BEGINS,
            thread: 65_536,
            ..FIELDS
        };
        let strange = JgFact {
            word: IS_LENGTH + 1,
            ..FIELDS
        };
        assert_eq!((Fact::of(far), Fact::of(strange)), (None, None));
    }
}
