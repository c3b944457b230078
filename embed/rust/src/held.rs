//! What keeps an object from being gone.

use crate::ffi::JgHeld;
use crate::numbers::{BY_BUFFER, BY_MONITOR, BY_NOTHING, BY_PENDING, BY_REFERENCE, BY_SETUP};
use crate::value::{Buffer, Reference};
use std::fmt;

/// What keeps an object from being gone ([`Error::StillHeld`](crate::Error::StillHeld)).
#[derive(Clone, Copy, Debug, PartialEq, Eq)]
#[non_exhaustive]
pub enum Holder {
    /// Nothing does: it isn't there, or stands in the list before.
    Nothing,
    /// It is a class object of the setup.
    Setup,
    /// This live local or global reference names it.
    Reference(Reference),
    /// It is pending in this thread.
    Pending(u16),
    /// This critical buffer of it is open.
    Buffer(Buffer),
    /// This thread owns its monitor.
    Monitor(u16),
}

impl Holder {
    /// What the library wrote, if it is one that this crate knows.
    pub(crate) fn of(held: JgHeld) -> Option<Holder> {
        let thread = u16::try_from(held.thread).ok();
        match held.by {
            BY_NOTHING => Some(Holder::Nothing),
            BY_SETUP => Some(Holder::Setup),
            BY_REFERENCE => Reference::of(held.name).map(Holder::Reference),
            BY_PENDING => thread.map(Holder::Pending),
            BY_BUFFER => Buffer::of(held.name).map(Holder::Buffer),
            BY_MONITOR => thread.map(Holder::Monitor),
            _ => None,
        }
    }
}

impl fmt::Display for Holder {
    fn fmt(&self, out: &mut fmt::Formatter<'_>) -> fmt::Result {
        match self {
            Holder::Nothing => out.write_str("it isn't there"),
            Holder::Setup => out.write_str("it is a class of the setup"),
            Holder::Reference(reference) => write!(out, "{reference} names it"),
            Holder::Pending(thread) => write!(out, "it is pending in T{thread}"),
            Holder::Buffer(buffer) => write!(out, "{buffer} of it is open"),
            Holder::Monitor(thread) => write!(out, "T{thread} owns its monitor"),
        }
    }
}

#[cfg(test)]
mod tests {
    use super::*;
    use crate::value::NONE;

    #[test]
    fn what_the_library_wrote_is_read() {
        let held = |by, thread, name| JgHeld {
            place: 0,
            by,
            thread,
            name,
        };
        let local = Reference::local(1, 2);
        let (maker, number) = (1, 2);
        let buffer = Buffer { maker, number };
        let cases = [
            (held(BY_NOTHING, 0, NONE), Some(Holder::Nothing)),
            (held(BY_SETUP, 0, NONE), Some(Holder::Setup)),
            (
                held(BY_REFERENCE, 0, local.value()),
                Some(Holder::Reference(local)),
            ),
            (held(BY_PENDING, 7, NONE), Some(Holder::Pending(7))),
            (
                held(BY_BUFFER, 0, buffer.value()),
                Some(Holder::Buffer(buffer)),
            ),
            (held(BY_MONITOR, 7, NONE), Some(Holder::Monitor(7))),
            (held(6, 0, NONE), None),
            (held(BY_BUFFER, 0, NONE), None),
        ];
        for (held, holder) in cases {
            assert_eq!(Holder::of(held), holder);
        }
    }
}
