//! The core, in front of a machine that answers by itself.

use crate::error::{answered, found, Error};
use crate::fact::{Fact, Family, ObjectKind};
use crate::ffi::{self, JgBounds, JgCore, JgFact, JgHeld, JgTicket, JgValue, JgVerdict};
use crate::functions::Function;
use crate::held::Holder;
use crate::numbers;
use crate::rule::Rule;
use crate::text;
use crate::value::{Buffer, Environment, Given, Kind, Object, Reference, Says, Value, NONE};
use std::error;
use std::fmt;
use std::ptr::null_mut;
use std::sync::atomic::{AtomicU64, Ordering};

/// By which numbers rule 12 judges.
#[derive(Clone, Copy, Debug, PartialEq, Eq)]
pub struct Bounds {
    /// How many local references a frame may have room for.
    pub capacity: i32,
    /// How many items an array may have.
    pub length: i32,
    /// How many items of a region may be read.
    pub items: i32,
}

impl Bounds {
    /// Those of a real machine, which bounds nothing.
    pub const NONE: Bounds = Bounds {
        capacity: i32::MAX,
        length: i32::MAX,
        items: i32::MAX,
    };

    /// The bounds, as C has them.
    pub(crate) fn numbers(self) -> JgBounds {
        JgBounds {
            capacity: self.capacity,
            length: self.length,
            items: self.items,
        }
    }
}

/// What comes of a call, kept until the machine has answered ([`Core::did`]).
///
/// A call is told once, so there is one ticket of it. It holds no memory, and may be dropped where nothing is to be
/// told.
#[derive(Debug, PartialEq, Eq)]
#[must_use = "what came of the call is told by `Core::did`"]
pub struct Ticket {
    pub(crate) numbers: JgTicket,
    /// The core or the witness that wrote it ([`Core::id`]).
    pub(crate) core: u64,
}

impl Ticket {
    /// Whether anything may come of the call that is to be told, where it threw nothing. Where nothing may, [`Core::did`]
    /// need be called only if it threw. It is false of a `GetStringLength`, and true of a `GetObjectField`, also of one
    /// that answers `NULL`.
    pub fn tells(&self) -> bool {
        // SAFETY: the pointer is that of a value.
        unsafe { ffi::jg_tells(&self.numbers) != 0 }
    }

    /// Whether the ticket of a denied call that the machine made all the same leaves open if something has ended: a
    /// reference that it took for one of its own, a buffer that it may have taken back, a frame that it may have popped.
    /// Then [`Core::did`] takes [`Says::Null`] where it has ended, and [`Says::Done`] where it hasn't.
    pub fn is_in_doubt(&self) -> bool {
        // SAFETY: the pointer is that of a value.
        unsafe { ffi::jg_is_in_doubt(&self.numbers) == 1 }
    }

    /// The fact that [`Core::did`] tells of this ticket and of what the machine says, so that [`Core::fact_line`] can
    /// write its line of a record; `None` where nothing is told.
    ///
    /// The fact that [`Core::ending`] told is that of the verdict's ticket with [`Says::Done`]; but of `PopLocalFrame`
    /// and `NativeLeave` with the object that the first operand named, or with [`Says::Null`] where it named none.
    pub fn told(&self, says: Says) -> Result<Option<Fact>, Error> {
        let (says, mut fact) = (says.value(), UNTOLD);
        // SAFETY: the pointers are those of values.
        let answer = unsafe { ffi::jg_told(&self.numbers, &says, &mut fact) };
        match answered(answer.into())? {
            0 => Ok(None),
            _ => Fact::of(fact)
                .map(Some)
                .ok_or(Error::Unknown(answer.into())),
        }
    }
}

/// Why [`Core::did`] told nothing, and the ticket. By that it may be told again: after [`Error::NoMemory`], or once
/// what was missing is told.
#[derive(Debug, PartialEq, Eq)]
#[must_use]
pub struct Untold {
    /// Why nothing was told.
    pub error: Error,
    /// The ticket that was handed in.
    pub ticket: Ticket,
}

impl From<Untold> for Error {
    /// Lets the ticket go.
    fn from(untold: Untold) -> Error {
        untold.error
    }
}

impl fmt::Display for Untold {
    fn fmt(&self, out: &mut fmt::Formatter<'_>) -> fmt::Result {
        self.error.fmt(out)
    }
}

impl error::Error for Untold {}

/// What a question is answered.
#[derive(Debug, PartialEq, Eq)]
#[must_use = "a verdict says whether the machine may make the call"]
pub enum Verdict {
    /// It breaks no rule: let the machine make the call, and then tell what came of it.
    Passed(Ticket),
    /// It breaks this rule first: don't let the machine make the call.
    Denied {
        /// The rule.
        rule: Rule,
        /// The place of the operand that breaks it, counted from 0, where one does.
        operand: Option<usize>,
        /// What comes of it where the machine makes it all the same ([`Ticket::is_in_doubt`]).
        ticket: Ticket,
    },
}

impl Verdict {
    /// The verdict that this core wrote.
    pub(crate) fn of(verdict: JgVerdict, core: u64) -> Result<Verdict, Error> {
        let ticket = Ticket {
            numbers: verdict.ticket,
            core,
        };
        if verdict.rule == numbers::PASSED {
            return Ok(Verdict::Passed(ticket));
        }
        let rule = Rule::of_number(verdict.rule).ok_or(Error::Unknown(verdict.rule.into()))?;
        let operand = usize::try_from(verdict.operand).ok();
        Ok(Verdict::Denied {
            rule,
            operand: operand.and_then(|it| it.checked_sub(1)),
            ticket,
        })
    }

    /// The rule that is broken, if one is.
    pub fn rule(&self) -> Option<Rule> {
        match self {
            Verdict::Passed(_) => None,
            Verdict::Denied { rule, .. } => Some(*rule),
        }
    }
}

/// What the library writes a fact into.
const UNTOLD: JgFact = JgFact {
    word: 0,
    thread: 0,
    name: NONE,
    object: NONE,
    first: 0,
    second: 0,
};

/// What the library writes into where an object can't be gone.
pub(crate) const NOT_HELD: JgHeld = JgHeld {
    place: 0,
    by: 0,
    thread: 0,
    name: NONE,
};

/// The error of an object that can't be gone.
pub(crate) fn still_held(held: JgHeld) -> Error {
    match (usize::try_from(held.place), Holder::of(held)) {
        (Ok(place), Some(by)) => Error::StillHeld { place, by },
        _ => Error::Impossible,
    }
}

/// What the library writes a verdict into.
pub(crate) const UNASKED: JgVerdict = JgVerdict {
    rule: 0,
    operand: 0,
    ticket: JgTicket {
        expected: 0,
        thread: 0,
        fact: UNTOLD,
    },
};

/// A core: it is asked whether a call may be made now, and told what the machine did.
///
/// It may be moved to another thread. Several threads share one behind a lock, as a `Mutex<Core>`. Hold it for each
/// call, and never while the machine makes one.
///
/// ```
/// fn needs_send<T: Send>() {}
/// needs_send::<jg::Core>();
/// ```
///
/// ```compile_fail
/// fn needs_sync<T: Sync>() {}
/// needs_sync::<jg::Core>();
/// ```
#[derive(Debug)]
pub struct Core {
    handle: JgCore,
    /// Which of the cores and witnesses of this process it is: no other has had this number.
    id: u64,
}

/// How many cores and witnesses were opened.
static OPENED: AtomicU64 = AtomicU64::new(0);

/// A number that no other core and no witness has had.
pub(crate) fn next_id() -> u64 {
    OPENED.fetch_add(1, Ordering::Relaxed)
}

// SAFETY: a handle may be used by any thread, by one call at a time; `&mut self` sees to that. The pointer in it keeps
// `Core` from being `Sync`.
unsafe impl Send for Core {}

pub(crate) fn env_value(env: Option<Environment>) -> JgValue {
    env.map_or(NONE, Environment::value)
}

/// The operands, as C has them.
pub(crate) fn first_of(operands: &[Value]) -> *const JgValue {
    // `Value` is a transparent `JgValue`.
    operands.as_ptr().cast()
}

/// The numbers of the objects, as C has them.
pub(crate) fn numbers_of(objects: &[Object]) -> *const u64 {
    // `Object` is a transparent `u64`.
    objects.as_ptr().cast()
}

impl Core {
    /// A core that was told nothing, under the setup that the text states. Where a faulty text has its fault,
    /// [`setup_fault`](crate::setup_fault) tells.
    pub fn open(setup: &str, bounds: Bounds) -> Result<Core, Error> {
        let mut handle = JgCore { at: null_mut() };
        let bounds = bounds.numbers();
        // SAFETY: the text is as long as is said, and the handle is closed.
        let answer = unsafe {
            ffi::jg_core_open(
                setup.as_ptr(),
                setup.len(),
                &bounds,
                numbers::ABI,
                &mut handle,
            )
        };
        answered(answer.into())?;
        Ok(Core {
            handle,
            id: next_id(),
        })
    }

    /// The handle, for calls that take two.
    pub(crate) fn handle(&mut self) -> *mut JgCore {
        &mut self.handle
    }

    /// Whether the thread, with this environment, may now call the function with these operands. Ask when the call
    /// begins. A question changes nothing.
    pub fn ask(
        &mut self,
        thread: u16,
        env: Option<Environment>,
        function: Function,
        operands: &[Value],
    ) -> Result<Verdict, Error> {
        let mut verdict = UNASKED;
        let env = env_value(env);
        // SAFETY: the handle is open, nobody else uses it, and the operands are as many as is said.
        let answer = unsafe {
            ffi::jg_ask(
                &mut self.handle,
                thread.into(),
                &env,
                function.number(),
                first_of(operands),
                operands.len(),
                &mut verdict,
            )
        };
        answered(answer.into())?;
        Verdict::of(verdict, self.id)
    }

    /// Asks as [`Core::ask`] does, and answers the rule alone that is broken first, without a ticket; `None` where none
    /// is. For calls of which nothing need be told, and for callers that tell the facts themselves.
    pub fn may(
        &mut self,
        thread: u16,
        env: Option<Environment>,
        function: Function,
        operands: &[Value],
    ) -> Result<Option<Rule>, Error> {
        let env = env_value(env);
        // SAFETY: as for `ask`.
        let answer = unsafe {
            ffi::jg_may(
                &mut self.handle,
                thread.into(),
                &env,
                function.number(),
                first_of(operands),
                operands.len(),
            )
        };
        if answered(answer.into())? == 0 {
            return Ok(None);
        }
        let rule = u32::try_from(answer).ok().and_then(Rule::of_number);
        rule.map(Some).ok_or(Error::Unknown(answer.into()))
    }

    /// Asks, and where no rule is broken takes at once what the call ends: for deletions, releases, `PopLocalFrame`,
    /// `MonitorExit`, `ExceptionClear`, `UnregisterNatives` and `NativeLeave`. Call it before the machine ends it. Beside
    /// the verdict it answers the name of what is handed out. The ticket of a passed call is for [`Ticket::told`] alone.
    pub fn ending(
        &mut self,
        thread: u16,
        env: Option<Environment>,
        function: Function,
        operands: &[Value],
    ) -> Result<(Verdict, Given), Error> {
        let (mut verdict, mut given) = (UNASKED, NONE);
        let env = env_value(env);
        // SAFETY: as for `ask`.
        let answer = unsafe {
            ffi::jg_ending(
                &mut self.handle,
                thread.into(),
                &env,
                function.number(),
                first_of(operands),
                operands.len(),
                &mut verdict,
                &mut given,
            )
        };
        answered(answer.into())?;
        Ok((Verdict::of(verdict, self.id)?, Given::of(given)))
    }

    /// Tells what came of a call once it has returned, by what the machine says of it. Answers the name of what
    /// it handed out. Where nothing was told it hands the ticket back; `?` lets that go, and passes the [`Error`] on.
    ///
    /// [`Error::BadTicket`] where another core wrote the ticket, or [`Core::ending`] told its call;
    /// [`Error::Impossible`] also where it threw what can't be thrown.
    pub fn did(&mut self, mut ticket: Ticket, says: Says) -> Result<Given, Untold> {
        if ticket.core != self.id {
            let error = Error::BadTicket;
            return Err(Untold { error, ticket });
        }
        let (says, mut given) = (says.value(), NONE);
        // SAFETY: the handle is open, and nobody else uses it.
        let answer = unsafe { ffi::jg_did(&mut self.handle, &mut ticket.numbers, &says, &mut given) };
        match answered(answer.into()) {
            Ok(_) => Ok(Given::of(given)),
            Err(error) => Err(Untold { error, ticket }),
        }
    }

    /// Takes a fact. Answers the name of what it hands out. Tell what ends something before the machine ends it, and
    /// what begins something after.
    pub fn tell(&mut self, fact: Fact) -> Result<Given, Error> {
        let (fact, mut given) = (fact.numbers(), NONE);
        // SAFETY: the handle is open, and nobody else uses it.
        let answer = unsafe { ffi::jg_tell(&mut self.handle, &fact, &mut given) };
        answered(answer.into())?;
        Ok(Given::of(given))
    }

    /// Takes that the collector let these objects go: all of them, or none and [`Error::StillHeld`].
    pub fn gone(&mut self, objects: &[Object]) -> Result<(), Error> {
        let mut held = NOT_HELD;
        // SAFETY: the handle is open, nobody else uses it, and the objects are as many as is said.
        let answer = unsafe {
            ffi::jg_gone_held(
                &mut self.handle,
                numbers_of(objects),
                objects.len(),
                &mut held,
            )
        };
        match answered(answer.into()) {
            Err(Error::Impossible) => Err(still_held(held)),
            other => other.map(|_| ()),
        }
    }

    /// The line of a record that asks this, without line feed and without the core's answer.
    pub fn question_line(
        &mut self,
        thread: u16,
        env: Option<Environment>,
        function: Function,
        operands: &[Value],
    ) -> Result<String, Error> {
        let env = env_value(env);
        // SAFETY: as for `ask`, and the room is as long as is said.
        text::whole(|line, room| unsafe {
            ffi::jg_question_line(
                &mut self.handle,
                thread.into(),
                &env,
                function.number(),
                first_of(operands),
                operands.len(),
                line,
                room,
            )
        })
    }

    /// The line of a record that tells this fact.
    pub fn fact_line(&mut self, fact: Fact) -> Result<String, Error> {
        let fact = fact.numbers();
        // SAFETY: the handle is open, nobody else uses it, and the room is as long as is said.
        text::whole(|line, room| unsafe { ffi::jg_fact_line(&mut self.handle, &fact, line, room) })
    }

    /// The line of a record that tells that these objects are gone, by this thread, which may be 0.
    pub fn gone_line(&mut self, thread: u16, objects: &[Object]) -> Result<String, Error> {
        // SAFETY: the handle is open, nobody else uses it, and objects and room are as many as is said.
        text::whole(|line, room| unsafe {
            ffi::jg_gone_line(
                &mut self.handle,
                thread.into(),
                numbers_of(objects),
                objects.len(),
                line,
                room,
            )
        })
    }

    /// The line of a record that tells the bounds; it stands before the first question.
    pub fn bounds_line(&mut self) -> Result<String, Error> {
        // SAFETY: as above.
        text::whole(|line, room| unsafe { ffi::jg_bounds_line(&mut self.handle, line, room) })
    }

    /// What is left behind by all that was told, a line each, as `jg watch --leaks` lists it.
    pub fn leaks(&mut self) -> Result<String, Error> {
        // SAFETY: as above.
        text::whole(|bytes, room| unsafe { ffi::jg_core_leaks(&mut self.handle, bytes, room) })
    }
}

/// Numbers of classes and native methods, as the setup has them.
impl Core {
    /// The number of the setup's class of this name, as `java/lang/String`, if it states one.
    pub fn class_named(&mut self, name: &str) -> Result<Option<u32>, Error> {
        // SAFETY: the handle is open, nobody else uses it, and the name is as long as is said.
        let answer = unsafe { ffi::jg_class_named(&mut self.handle, name.as_ptr(), name.len()) };
        found(answer, numbers::NO_NAME)
    }

    /// The number, from 1, of the native method of the class that has this name and this type, as `run` and `()V`, if
    /// the setup states one.
    pub fn native_named(
        &mut self,
        class: u32,
        name: &str,
        signature: &str,
    ) -> Result<Option<u32>, Error> {
        // SAFETY: the handle is open, nobody else uses it, and both texts are as long as is said.
        let answer = unsafe {
            ffi::jg_native_named(
                &mut self.handle,
                class,
                name.as_ptr(),
                name.len(),
                signature.as_ptr(),
                signature.len(),
            )
        };
        found(answer, numbers::NO_NAME)
    }

    /// The number of the class of objects of this kind, for those of classes that the setup doesn't state.
    pub fn class_of(&mut self, kind: ObjectKind) -> Result<u32, Error> {
        // SAFETY: the handle is open, and nobody else uses it.
        let answer = unsafe { ffi::jg_class_of(&mut self.handle, kind as u32) };
        u32::try_from(answered(answer)?).map_err(|_| Error::Unknown(answer))
    }
}

/// What another name than the fact's would be.
fn unknown<T>(given: Given) -> Result<T, Error> {
    debug_assert!(false, "the core gave {given:?}");
    Err(Error::Unknown(0))
}

fn kept_by(given: Given) -> Result<Option<Reference>, Error> {
    match given {
        Given::Nothing => Ok(None),
        Given::Reference(reference) => Ok(Some(reference)),
        _ => unknown(given),
    }
}

/// Facts that hand out something, each with the name that it gives.
impl Core {
    /// A session of the thread begins: its environment.
    pub fn begins(&mut self, thread: u16) -> Result<Environment, Error> {
        match self.tell(Fact::Begins { thread })? {
            Given::Environment(env) => Ok(env),
            given => unknown(given),
        }
    }

    /// There is a next object, of the class and so long: its number.
    pub fn met(&mut self, thread: u16, class: u32, length: u32) -> Result<Object, Error> {
        match self.tell(Fact::Met {
            thread,
            class,
            length,
        })? {
            Given::Object(object) => Ok(object),
            given => unknown(given),
        }
    }

    /// The thread was handed a reference to the object: its name.
    pub fn got(&mut self, thread: u16, kind: Kind, object: Object) -> Result<Reference, Error> {
        match self.tell(Fact::Got {
            thread,
            kind,
            object,
        })? {
            Given::Reference(reference) => Ok(reference),
            given => unknown(given),
        }
    }

    /// The thread was lent a buffer of the object, of so many items: its name. `by` is the reference that a critical
    /// one was asked for by, and `NULL` of the other families.
    pub fn lent(
        &mut self,
        thread: u16,
        family: Family,
        object: Object,
        by: Reference,
        length: u32,
    ) -> Result<Buffer, Error> {
        let fact = Fact::Lent {
            thread,
            family,
            object,
            by,
            length,
        };
        match self.tell(fact)? {
            Given::Buffer(buffer) => Ok(buffer),
            given => unknown(given),
        }
    }

    /// The thread left a native method: the reference by which it was handed the object that is kept, if one is.
    pub fn leaves(
        &mut self,
        thread: u16,
        kept: Option<Object>,
    ) -> Result<Option<Reference>, Error> {
        kept_by(self.tell(Fact::Leaves { thread, kept })?)
    }

    /// The thread popped a frame: the reference by which it was handed the object that is kept, if one is.
    pub fn popped(
        &mut self,
        thread: u16,
        kept: Option<Object>,
    ) -> Result<Option<Reference>, Error> {
        kept_by(self.tell(Fact::Popped { thread, kept })?)
    }
}

impl Drop for Core {
    fn drop(&mut self) {
        // SAFETY: the handle is open, and isn't used any more.
        unsafe { ffi::jg_core_close(&mut self.handle) };
    }
}
