//! Why a call did nothing.

use crate::functions;
use crate::held::Holder;
use crate::numbers;
use std::error;
use std::fmt;

/// What is wrong with a setup text (docs/FORMATS.md, "Faults").
#[derive(Clone, Copy, Debug, PartialEq, Eq)]
#[must_use]
#[non_exhaustive]
pub enum SetupFault {
    /// The text is no TOML document.
    NotToml,
    /// The version is neither 1 nor 2.
    BadVersion,
    /// A key isn't among those that may stand there.
    UnknownKey,
    /// A required key is missing.
    Missing,
    /// A value is of another type than its key asks for.
    BadType,
    /// A mode or an operation is none of its three.
    BadMode,
    /// A name or a type isn't spelt as it must be.
    BadName,
    /// Two classes, fields or native methods are the same.
    Duplicate,
    /// A limit is passed.
    TooMany,
}

/// What is wrong with a line of a script (docs/FORMATS.md, "Faults of a line").
#[derive(Clone, Copy, Debug, PartialEq, Eq)]
#[must_use]
#[non_exhaustive]
pub enum LineFault {
    /// It has more than 65,536 bytes.
    LineTooLong,
    /// A byte is outside 0x20 to 0x7E.
    NotAscii,
    /// The first field is no thread.
    NoThread,
    /// The second field is no environment.
    NoEnv,
    /// The third field is no function's name.
    UnknownFunction,
    /// There are more or fewer operands than the function takes.
    WrongCount,
    /// An operand is no spelling of its kind.
    BadOperand,
}

/// Why a call did nothing.
#[derive(Clone, Copy, Debug, PartialEq, Eq)]
#[must_use]
#[non_exhaustive]
pub enum Error {
    /// The library is of another version than this crate.
    BadVersion,
    /// Memory ran out. The call may be made again.
    NoMemory,
    /// A value isn't of a kind that may stand there, or its numbers are out of range.
    BadValue,
    /// The operands aren't as many as the function's, or not of their sorts.
    Misfit,
    /// The numbers state no fact.
    BadFact,
    /// The fact can't be: what was told before it says so. It is a mistake of who tells, never of native code.
    Impossible,
    /// An object of the list can't be gone.
    StillHeld {
        /// The place of the first that can't be, counted from 0.
        place: usize,
        /// What keeps it.
        by: Holder,
    },
    /// 2^60 facts made something.
    Full,
    /// The ticket is none of this core's, or its call was told already.
    BadTicket,
    /// The journal has as many entries as it may.
    Limit,
    /// A line has no text, or is too long.
    NoText,
    /// The call was made and journaled, and memory ran out for its line.
    Unwritten,
    /// A setup text is faulty.
    Setup(SetupFault),
    /// A line of a script is faulty.
    Line(LineFault),
    /// An answer that this crate doesn't know.
    Unknown(i64),
}

/// The error of each answer below 0.
const ERRORS: [(i64, Error); 27] = [
    (numbers::BAD_VERSION, Error::BadVersion),
    (numbers::NO_MEMORY, Error::NoMemory),
    (numbers::BAD_VALUE, Error::BadValue),
    (numbers::MISFIT, Error::Misfit),
    (numbers::BAD_FACT, Error::BadFact),
    (numbers::IMPOSSIBLE, Error::Impossible),
    (numbers::FULL, Error::Full),
    (numbers::BAD_TICKET, Error::BadTicket),
    (numbers::LIMIT, Error::Limit),
    (numbers::NO_TEXT, Error::NoText),
    (numbers::UNWRITTEN, Error::Unwritten),
    (numbers::NOT_TOML, Error::Setup(SetupFault::NotToml)),
    (numbers::SETUP_VERSION, Error::Setup(SetupFault::BadVersion)),
    (numbers::UNKNOWN_KEY, Error::Setup(SetupFault::UnknownKey)),
    (numbers::MISSING, Error::Setup(SetupFault::Missing)),
    (numbers::BAD_TYPE, Error::Setup(SetupFault::BadType)),
    (numbers::BAD_MODE, Error::Setup(SetupFault::BadMode)),
    (numbers::BAD_NAME, Error::Setup(SetupFault::BadName)),
    (numbers::DUPLICATE, Error::Setup(SetupFault::Duplicate)),
    (numbers::TOO_MANY, Error::Setup(SetupFault::TooMany)),
    (numbers::LINE_TOO_LONG, Error::Line(LineFault::LineTooLong)),
    (numbers::NOT_ASCII, Error::Line(LineFault::NotAscii)),
    (numbers::NO_THREAD, Error::Line(LineFault::NoThread)),
    (numbers::NO_ENV, Error::Line(LineFault::NoEnv)),
    (
        numbers::UNKNOWN_FUNCTION,
        Error::Line(LineFault::UnknownFunction),
    ),
    (numbers::WRONG_COUNT, Error::Line(LineFault::WrongCount)),
    (numbers::BAD_OPERAND, Error::Line(LineFault::BadOperand)),
];

impl Error {
    fn of(answer: i64) -> Error {
        ERRORS
            .iter()
            .find(|(number, _)| *number == answer)
            .map_or(Error::Unknown(answer), |(_, error)| *error)
    }

    /// Its number in `jg.h`.
    pub fn number(&self) -> i64 {
        let found = ERRORS.iter().find(|(_, error)| error == self);
        match (self, found) {
            (_, Some((number, _))) => *number,
            (Error::Unknown(answer), None) => *answer,
            _ => numbers::IMPOSSIBLE,
        }
    }

    /// Its name in `jg.h`, without `JG_`, as `BAD_TICKET`. An unknown error has none.
    pub fn name(&self) -> Option<&'static str> {
        let number = self.number();
        let found = functions::ERRORS.iter().find(|(it, _)| *it == number);
        found.map(|(_, name)| *name)
    }
}

/// What a call of the library answered, where that is no error.
pub(crate) fn answered(answer: i64) -> Result<usize, Error> {
    usize::try_from(answer).map_err(|_| Error::of(answer))
}

/// The number that a call of the library answered; `None` where that is `none`.
pub(crate) fn found(answer: i64, none: i64) -> Result<Option<u32>, Error> {
    if answer == none {
        return Ok(None);
    }
    u32::try_from(answer)
        .map(Some)
        .map_err(|_| Error::of(answer))
}

impl fmt::Display for SetupFault {
    /// Writes its name, as docs/FORMATS.md has it.
    fn fmt(&self, out: &mut fmt::Formatter<'_>) -> fmt::Result {
        fmt::Debug::fmt(self, out)
    }
}

impl error::Error for SetupFault {}

impl fmt::Display for LineFault {
    /// Writes its name, as docs/FORMATS.md has it.
    fn fmt(&self, out: &mut fmt::Formatter<'_>) -> fmt::Result {
        fmt::Debug::fmt(self, out)
    }
}

impl error::Error for LineFault {}

impl fmt::Display for Error {
    fn fmt(&self, out: &mut fmt::Formatter<'_>) -> fmt::Result {
        match self {
            Error::BadVersion => out.write_str("the library is of another version"),
            Error::NoMemory => out.write_str("no memory"),
            Error::BadValue => out.write_str("a value may not stand there"),
            Error::Misfit => out.write_str("the operands aren't the function's"),
            Error::BadFact => out.write_str("the numbers state no fact"),
            Error::Impossible => out.write_str("the fact can't be"),
            Error::StillHeld { place, by } => {
                write!(out, "object {place} of the list can't be gone: {by}")
            }
            Error::Full => out.write_str("2^60 facts made something"),
            Error::BadTicket => out.write_str("the ticket is none of this core's, or its call was told already"),
            Error::Limit => out.write_str("limit"),
            Error::NoText => out.write_str("the line has no text"),
            Error::Unwritten => {
                out.write_str("the call was made, and there is no memory for its line")
            }
            Error::Setup(fault) => write!(out, "setup: {fault}"),
            Error::Line(fault) => write!(out, "line: {fault}"),
            Error::Unknown(answer) => write!(out, "the library answers {answer}"),
        }
    }
}

impl error::Error for Error {}

#[cfg(test)]
mod tests {
    use super::*;
    use crate::ffi;
    use crate::text;

    #[test]
    fn each_error_has_a_number_and_a_text() {
        for (number, error) in ERRORS {
            assert_eq!(answered(number), Err(error));
            assert_eq!(error.number(), number);
            assert!(!error.to_string().is_empty());
        }
    }

    #[test]
    fn each_error_has_a_name() {
        for (_, error) in ERRORS {
            assert!(error.name().is_some(), "{error}");
        }
        assert_eq!(Error::BadTicket.name(), Some("BAD_TICKET"));
        let (place, by) = (1, Holder::Setup);
        let held = Error::StillHeld { place, by };
        assert_eq!(held.name(), Some("IMPOSSIBLE"));
        let text = "object 1 of the list can't be gone: it is a class of the setup";
        assert_eq!(held.to_string(), text);
        assert_eq!(Error::Unknown(-31).name(), None);
    }

    #[test]
    fn errors_have_the_names_of_the_library() {
        for number in -200..=1 {
            // SAFETY: the room is as long as is said.
            let named =
                text::whole(|bytes, room| unsafe { ffi::jg_error_name(number, bytes, room) });
            let error = Error::of(number.into());
            assert_eq!(error.name(), named.ok().as_deref(), "{number}");
        }
    }

    #[test]
    fn faults_are_written_by_their_names() {
        let faults: [Box<dyn error::Error>; 2] =
            [Box::new(SetupFault::NotToml), Box::new(LineFault::NotAscii)];
        assert_eq!(
            faults.map(|it| it.to_string()),
            ["NotToml", "NotAscii"].map(String::from)
        );
        let fault = Error::Setup(SetupFault::BadVersion);
        assert_eq!(fault.to_string(), "setup: BadVersion");
    }

    #[test]
    fn what_is_not_found_is_none() {
        let (none, refused) = (numbers::NO_NAME, numbers::NO_MEMORY);
        assert_eq!(found(none, none), Ok(None));
        assert_eq!(found(15, none), Ok(Some(15)));
        assert_eq!(found(refused, none), Err(Error::NoMemory));
    }

    #[test]
    fn another_answer_is_unknown() {
        assert_eq!(answered(-31), Err(Error::Unknown(-31)));
        assert_eq!(answered(7), Ok(7));
    }
}
