//! The guard `jg` for Rust: a proved judge of calls of the Java Native Interface.
//!
//! - A [`Core`] stands in front of a virtual machine that answers by itself. It is asked whether a thread may make a
//!   call now, and is told what the machine did.
//! - A [`Witness`] is a core that is asked by the machine's own handles, and keeps what each means.
//! - A [`Guard`] answers scripts, as the program `jg` does: a line of a script in, its line of the journal out.
//! - An [`Adviser`] stands beside a core, and says what breaks no rule and is likely wrong.
//!
//! The crate is a thin cover of `libjg.a`, which `./jg --lib` builds. What is proved is the library; this cover is
//! tested.
//!
//! ```
//! use jg::{Bounds, Core, Function, Kind, Rule, Verdict};
//!
//! const STRING: u32 = 2;
//!
//! let mut core = Core::open("version = 1\nillegal_native_access = \"deny\"\n", Bounds::NONE)?;
//! let env = core.begins(1)?;
//!
//! // The machine made a string, and thread 1 was handed a local reference to it.
//! let object = core.met(1, STRING, 2)?;
//! let local = core.got(1, Kind::Local, object)?;
//! assert_eq!(local.to_string(), "L1.1");
//!
//! // A question before each call. What ends something is told with it.
//! let length = core.ask(1, Some(env), Function::GetStringLength, &[local.into()])?;
//! assert!(matches!(length, Verdict::Passed(_)));
//! let (deleted, _) = core.ending(1, Some(env), Function::DeleteLocalRef, &[local.into()])?;
//! assert_eq!(deleted.rule(), None);
//! let again = core.ask(1, Some(env), Function::GetStringLength, &[local.into()])?;
//! assert_eq!(again.rule(), Some(Rule::DeadReference));
//! # Ok::<(), jg::Error>(())
//! ```

#![deny(missing_docs)]
#![deny(unsafe_op_in_unsafe_fn)]

mod adviser;
mod core;
mod error;
mod fact;
mod ffi;
mod functions;
mod guard;
mod held;
mod numbers;
mod outcome;
mod rule;
mod text;
mod value;
mod witness;

pub use crate::adviser::{Advice, AdviceKind, Adviser, Spot};
pub use crate::core::{Bounds, Core, Ticket, Untold, Verdict};
pub use crate::error::{Error, LineFault, SetupFault};
pub use crate::fact::{Fact, Family, ObjectKind};
pub use crate::functions::Function;
pub use crate::guard::Guard;
pub use crate::held::Holder;
pub use crate::outcome::{Entry, Outcome};
pub use crate::rule::Rule;
pub use crate::value::{Buffer, Environment, Given, Kind, Object, Reference, Says, Value};
pub use crate::witness::Witness;

use std::fmt;

impl Function {
    /// Its number in the table.
    pub const fn number(self) -> u32 {
        self as u32
    }

    /// Its name, as the JNI Specification has it.
    pub const fn name(self) -> &'static str {
        functions::NAMES[self as usize]
    }

    /// The function of that number.
    pub fn of_number(number: u32) -> Option<Function> {
        let mut all = Function::ALL.iter().copied();
        all.find(|it| it.number() == number)
    }

    /// The function of that name.
    pub fn of_name(name: &str) -> Option<Function> {
        let mut all = Function::ALL.iter().copied();
        all.find(|it| it.name() == name)
    }
}

impl fmt::Display for Function {
    fn fmt(&self, out: &mut fmt::Formatter<'_>) -> fmt::Result {
        out.write_str(self.name())
    }
}

/// The version of the library, as `jg --version` prints it.
pub fn version() -> Result<String, Error> {
    // SAFETY: the room is as long as is said.
    text::whole(|bytes, room| unsafe { ffi::jg_version(bytes, room) })
}

/// Where the text of a setup has its fault and what is wrong there, as `jg --explain` tells it: `line 3, column 7: ..`
/// where it is no TOML, else such as `class 2, field 1: type: ..`. `None` where it has none. It is for a text of which
/// [`Error::Setup`] was answered. Fails only for want of memory.
pub fn setup_fault(setup: &str) -> Result<Option<String>, Error> {
    // SAFETY: the text and the room are as long as is said.
    let told = text::whole(|bytes, room| unsafe {
        ffi::jg_setup_fault(setup.as_ptr(), setup.len(), bytes, room)
    })?;
    Ok(told.strip_suffix('\n').map(String::from))
}

/// Whether the bytes are modified UTF-8 (JNI Specification, chapter 3), which NewStringUTF takes. Fails only for want of
/// memory.
pub fn is_utf8(text: impl AsRef<[u8]>) -> Result<bool, Error> {
    let text = text.as_ref();
    // SAFETY: the text is as long as is said.
    let answer = unsafe { ffi::jg_is_utf8(text.as_ptr(), text.len()) };
    Ok(error::answered(i64::from(answer))? == 1)
}

/// What the compiler refuses, each beside what it takes.
///
/// There is one ticket of a call:
///
/// ```
/// fn needs_eq<T: Eq>() {}
/// needs_eq::<jg::Ticket>();
/// ```
///
/// ```compile_fail
/// fn needs_clone<T: Clone>() {}
/// needs_clone::<jg::Ticket>();
/// ```
///
/// A verdict is used:
///
/// ```
/// #![deny(unused_must_use)]
/// fn asks(core: &mut jg::Core) -> Result<(), jg::Error> {
///     let _ = core.ask(1, None, jg::Function::GetVersion, &[])?;
///     let _ = core.ending(1, None, jg::Function::ExceptionClear, &[])?;
///     Ok(())
/// }
/// ```
///
/// ```compile_fail
/// #![deny(unused_must_use)]
/// fn asks(core: &mut jg::Core) -> Result<(), jg::Error> {
///     core.ask(1, None, jg::Function::GetVersion, &[])?;
///     Ok(())
/// }
/// ```
///
/// ```compile_fail
/// #![deny(unused_must_use)]
/// fn ends(core: &mut jg::Core) -> Result<(), jg::Error> {
///     core.ending(1, None, jg::Function::ExceptionClear, &[])?;
///     Ok(())
/// }
/// ```
///
/// There may be more faults:
///
/// ```
/// fn is_first(fault: jg::SetupFault) -> bool {
///     use jg::SetupFault::*;
///     match fault {
///         NotToml => true,
///         BadVersion | UnknownKey | Missing | BadType | BadMode | BadName | Duplicate | TooMany => false,
///         _ => false,
///     }
/// }
/// ```
///
/// ```compile_fail
/// fn is_first(fault: jg::SetupFault) -> bool {
///     use jg::SetupFault::*;
///     match fault {
///         NotToml => true,
///         BadVersion | UnknownKey | Missing | BadType | BadMode | BadName | Duplicate | TooMany => false,
///     }
/// }
/// ```
#[cfg(doctest)]
struct Refused;
