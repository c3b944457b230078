//! The rules.

use crate::error::Error;
use crate::ffi;
use crate::functions;
use crate::numbers;
use crate::text;
use std::fmt;

/// A rule, by its number (docs/RULES.md).
#[derive(Clone, Copy, Debug, PartialEq, Eq, Hash, PartialOrd, Ord)]
#[repr(u32)]
#[non_exhaustive]
pub enum Rule {
    /// The environment is another thread's, or the caller may not make the call.
    WrongThread = numbers::WRONG_THREAD,
    /// An environment is needed and none is handed in, or it isn't the present session's.
    Detached = numbers::DETACHED,
    /// The caller is inside a critical region, and the function may not be called there.
    InCritical = numbers::IN_CRITICAL,
    /// The caller has a pending exception, and the function may not be called then.
    Pending = numbers::PENDING,
    /// A local reference that another thread was handed.
    ForeignLocal = numbers::FOREIGN_LOCAL,
    /// A reference that was never made or has ended.
    DeadReference = numbers::DEAD_REFERENCE,
    /// The deletion of a reference of another kind.
    WrongRefKind = numbers::WRONG_REF_KIND,
    /// `NULL`, or a weak reference whose object was collected, where an object is wanted.
    NullReference = numbers::NULL_REFERENCE,
    /// An object that isn't of the declared type.
    WrongType = numbers::WRONG_TYPE,
    /// An ID that doesn't fit the object and the function.
    BadField = numbers::BAD_FIELD,
    /// A buffer that isn't open, or may not be used so.
    BadBuffer = numbers::BAD_BUFFER,
    /// A number, a name or a list that the function doesn't take.
    BadArgument = numbers::BAD_ARGUMENT,
    /// The deletion of a reference through which an open critical buffer was made.
    Pinned = numbers::PINNED,
    /// `MonitorExit` by a thread that doesn't own the monitor.
    NotOwner = numbers::NOT_OWNER,
    /// A pop without a push, a return outside a native method, a detachment inside one.
    BadFrame = numbers::BAD_FRAME,
    /// A use of native code that the setup refuses to the class's module.
    NoNativeAccess = numbers::NO_NATIVE_ACCESS,
    /// `NativeEnter` of a method that isn't linked.
    NotLinked = numbers::NOT_LINKED,
}

impl Rule {
    /// All rules, in their order.
    pub const ALL: &'static [Rule] = &[
        Rule::WrongThread,
        Rule::Detached,
        Rule::InCritical,
        Rule::Pending,
        Rule::ForeignLocal,
        Rule::DeadReference,
        Rule::WrongRefKind,
        Rule::NullReference,
        Rule::WrongType,
        Rule::BadField,
        Rule::BadBuffer,
        Rule::BadArgument,
        Rule::Pinned,
        Rule::NotOwner,
        Rule::BadFrame,
        Rule::NoNativeAccess,
        Rule::NotLinked,
    ];

    /// Its number, 1 to 17.
    pub const fn number(self) -> u32 {
        self as u32
    }

    /// The rule of that number.
    pub fn of_number(number: u32) -> Option<Rule> {
        Rule::ALL
            .iter()
            .copied()
            .find(|rule| rule.number() == number)
    }

    /// Its name, as `DeadReference`.
    pub const fn name(self) -> &'static str {
        functions::RULES[self as usize - 1]
    }

    /// What it demands, in a sentence.
    pub fn text(self) -> Result<String, Error> {
        // SAFETY: the room is as long as is said.
        text::whole(|bytes, room| unsafe { ffi::jg_rule_text(self.number(), bytes, room) })
    }

    /// What helps where it is broken.
    pub fn help(self) -> Result<String, Error> {
        // SAFETY: as above.
        text::whole(|bytes, room| unsafe { ffi::jg_help_text(self.number(), bytes, room) })
    }
}

impl fmt::Display for Rule {
    /// Writes the number and the name, as `6 DeadReference`.
    fn fmt(&self, out: &mut fmt::Formatter<'_>) -> fmt::Result {
        write!(out, "{} {}", self.number(), self.name())
    }
}

#[cfg(test)]
mod tests {
    use super::*;

    #[test]
    fn rules_have_the_names_of_the_library() {
        for (number, rule) in (1..).zip(Rule::ALL) {
            // SAFETY: the room is as long as is said.
            let named =
                text::whole(|bytes, room| unsafe { ffi::jg_rule_name(number, bytes, room) });
            assert_eq!(named.as_deref(), Ok(rule.name()));
            assert_eq!(format!("{rule:?}"), rule.name());
        }
        assert_eq!(Rule::ALL.len(), functions::RULES.len());
    }
}
