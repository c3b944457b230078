//! A core that is asked by a machine's own handles.

use crate::core::{
    env_value, first_of, next_id, numbers_of, still_held, Bounds, Ticket, Untold, Verdict,
    NOT_HELD, UNASKED,
};
use crate::error::{answered, Error};
use crate::fact::Fact;
use crate::ffi::{self, JgValue, JgWitness};
use crate::functions::Function;
use crate::numbers;
use crate::value::{Environment, Given, Kind, Object, Reference, Says, Value, NONE};
use std::ptr::null_mut;

/// A witness: a core that is asked by the machine's own handles, and told which handle it handed out for what.
///
/// A handle is a word here, a number that means nothing but by what was told of it; 0 is `NULL`. It means the newest
/// reference that it was handed out for, as long as that is in being. A word that means nothing is asked as a dead
/// local of the thread that asks.
///
/// It may be moved to another thread, and shared behind a lock, as a [`Core`](crate::Core).
///
/// ```
/// use jg::{Bounds, Fact, Function, Given, Kind, Rule, Value, Witness};
///
/// const STRING: u32 = 2;
///
/// let setup = "version = 1\nillegal_native_access = \"deny\"\n";
/// let mut witness = Witness::open(setup, Bounds::NONE, 0)?;
/// let Given::Environment(env) = witness.tell(Fact::Begins { thread: 1 })? else { unreachable!() };
/// let met = Fact::Met { thread: 1, class: STRING, length: 5 };
/// let Given::Object(string) = witness.tell(met)? else { unreachable!() };
///
/// // The machine handed thread 1 the string as its handle 0x7f80.
/// witness.hand(0x7f80, 1, Kind::Local, string)?;
/// let handle = [Value::word(0x7f80)];
/// let (deleted, _) = witness.ending(1, Some(env), Function::DeleteLocalRef, &handle)?;
/// assert_eq!(deleted.rule(), None);
/// let again = witness.ask(1, Some(env), Function::GetStringLength, &handle)?;
/// assert_eq!(again.rule(), Some(Rule::DeadReference));
///
/// // It hands the same handle out anew, and the call passes.
/// witness.hand(0x7f80, 1, Kind::Local, string)?;
/// let anew = witness.ask(1, Some(env), Function::GetStringLength, &handle)?;
/// assert_eq!(anew.rule(), None);
/// # Ok::<(), jg::Error>(())
/// ```
///
/// ```compile_fail
/// fn needs_sync<T: Sync>() {}
/// needs_sync::<jg::Witness>();
/// ```
#[derive(Debug)]
pub struct Witness {
    handle: JgWitness,
    /// As of a core: no other has had this number.
    id: u64,
}

// SAFETY: as of `Core`.
unsafe impl Send for Witness {}

/// The name that was written, where the library answered that one was.
fn name_in(answer: i32, name: JgValue) -> Result<Option<Reference>, Error> {
    match answered(answer.into())? {
        0 => Ok(None),
        _ => Reference::of(name)
            .map(Some)
            .ok_or(Error::Unknown(answer.into())),
    }
}

impl Witness {
    /// A witness that was told nothing, under the setup that the text states. About `fewest` names of references that
    /// ended are kept, for [`Witness::last`].
    pub fn open(setup: &str, bounds: Bounds, fewest: u64) -> Result<Witness, Error> {
        let mut handle = JgWitness { at: null_mut() };
        let bounds = bounds.numbers();
        // SAFETY: the text is as long as is said, and the handle is closed.
        let answer = unsafe {
            ffi::jg_witness_open(
                setup.as_ptr(),
                setup.len(),
                &bounds,
                fewest,
                numbers::ABI,
                &mut handle,
            )
        };
        answered(answer.into())?;
        Ok(Witness {
            handle,
            id: next_id(),
        })
    }

    /// The machine handed the thread a reference to the object as this word: its name. What the word meant before has
    /// ended. After [`Error::Impossible`], [`Error::Full`] and [`Error::NoMemory`] the word means nothing.
    pub fn hand(
        &mut self,
        word: u64,
        thread: u16,
        kind: Kind,
        object: Object,
    ) -> Result<Reference, Error> {
        let (object, mut name) = (object.value(), NONE);
        // SAFETY: the handle is open, and nobody else uses it.
        let answer = unsafe {
            ffi::jg_witness_hand(
                &mut self.handle,
                word,
                thread.into(),
                kind as u32,
                &object,
                &mut name,
            )
        };
        answered(answer.into())?;
        Reference::of(name).ok_or(Error::Unknown(answer.into()))
    }

    /// The machine handed out the word for the reference of this name, which is in being: for one that
    /// [`Witness::ending`] or [`Witness::tell`] gave. What the word meant before has ended. After
    /// [`Error::Impossible`] and [`Error::NoMemory`] the word means nothing.
    pub fn handed(&mut self, word: u64, name: Reference) -> Result<(), Error> {
        let name = name.value();
        // SAFETY: the handle is open, and nobody else uses it.
        let answer = unsafe { ffi::jg_witness_handed(&mut self.handle, word, &name) };
        answered(answer.into()).map(|_| ())
    }

    /// The reference ended that the word was handed out for, and no call told it: the word means nothing any more.
    pub fn lapsed(&mut self, word: u64) -> Result<(), Error> {
        // SAFETY: the handle is open, and nobody else uses it.
        let answer = unsafe { ffi::jg_witness_lapsed(&mut self.handle, word) };
        answered(answer.into()).map(|_| ())
    }

    /// Takes a fact, as [`Core::tell`](crate::Core::tell) does. A reference that it hands out has no word until
    /// [`Witness::handed`] is called.
    pub fn tell(&mut self, fact: Fact) -> Result<Given, Error> {
        let (fact, mut given) = (fact.numbers(), NONE);
        // SAFETY: the handle is open, and nobody else uses it.
        let answer = unsafe { ffi::jg_witness_tell(&mut self.handle, &fact, &mut given) };
        answered(answer.into())?;
        Ok(Given::of(given))
    }

    /// Takes that the collector let these objects go: all of them, or none and [`Error::StillHeld`].
    pub fn gone(&mut self, objects: &[Object]) -> Result<(), Error> {
        let mut held = NOT_HELD;
        // SAFETY: the handle is open, nobody else uses it, and the objects are as many as is said.
        let answer = unsafe {
            ffi::jg_witness_gone(
                &mut self.handle,
                numbers_of(objects),
                objects.len(),
                &mut held,
            )
        };
        match answered(answer.into()) {
            Err(Error::Impossible) => Err(still_held(held)),
            other => other.map(|_| ()),
        }
    }

    /// Asks as [`Core::ask`](crate::Core::ask) does. A [`Value::word`] stands where a core has the name of a reference.
    pub fn ask(
        &mut self,
        thread: u16,
        env: Option<Environment>,
        function: Function,
        operands: &[Value],
    ) -> Result<Verdict, Error> {
        let mut verdict = UNASKED;
        let env = env_value(env);
        // SAFETY: the handle is open, nobody else uses it, and the operands are as many as is said.
        let answer = unsafe {
            ffi::jg_witness_ask(
                &mut self.handle,
                thread.into(),
                &env,
                function.number(),
                first_of(operands),
                operands.len(),
                &mut verdict,
            )
        };
        answered(answer.into())?;
        Verdict::of(verdict, self.id)
    }

    /// Asks as [`Core::ending`](crate::Core::ending) does, and takes at once what the call ends. Where a reference is
    /// given, tell its word by [`Witness::handed`] once the machine has handed it out.
    pub fn ending(
        &mut self,
        thread: u16,
        env: Option<Environment>,
        function: Function,
        operands: &[Value],
    ) -> Result<(Verdict, Given), Error> {
        let (mut verdict, mut given) = (UNASKED, NONE);
        let env = env_value(env);
        // SAFETY: as for `ask`.
        let answer = unsafe {
            ffi::jg_witness_ending(
                &mut self.handle,
                thread.into(),
                &env,
                function.number(),
                first_of(operands),
                operands.len(),
                &mut verdict,
                &mut given,
            )
        };
        answered(answer.into())?;
        Ok((Verdict::of(verdict, self.id)?, Given::of(given)))
    }

    /// Tells what came of a call once it has returned, as [`Core::did`](crate::Core::did) does. The word is the
    /// machine's handle for the reference that the call answered, and 0 where it answered none. What the word meant
    /// before has ended. After [`Error::Impossible`], [`Error::Full`] and [`Error::NoMemory`] it means nothing.
    pub fn did(&mut self, mut ticket: Ticket, says: Says, word: u64) -> Result<Given, Untold> {
        if ticket.core != self.id {
            let error = Error::BadTicket;
            return Err(Untold { error, ticket });
        }
        let (says, mut given) = (says.value(), NONE);
        // SAFETY: the handle is open, and nobody else uses it.
        let answer = unsafe {
            ffi::jg_witness_did(
                &mut self.handle,
                &mut ticket.numbers,
                &says,
                word,
                &mut given,
            )
        };
        match answered(answer.into()) {
            Ok(_) => Ok(Given::of(given)),
            Err(error) => Err(Untold { error, ticket }),
        }
    }

    /// The name of the reference that the word means, if it means one.
    pub fn meaning(&mut self, word: u64) -> Result<Option<Reference>, Error> {
        let mut name = NONE;
        // SAFETY: the handle is open, and nobody else uses it.
        let answer = unsafe { ffi::jg_witness_meaning(&mut self.handle, word, &mut name) };
        name_in(answer, name)
    }

    /// The newest name that the word was handed out for, whether its reference is in being or ended, where it is kept
    /// still.
    pub fn last(&mut self, word: u64) -> Result<Option<Reference>, Error> {
        let mut name = NONE;
        // SAFETY: the handle is open, and nobody else uses it.
        let answer = unsafe { ffi::jg_witness_last(&mut self.handle, word, &mut name) };
        name_in(answer, name)
    }
}

impl Drop for Witness {
    fn drop(&mut self) {
        // SAFETY: the handle is open, and isn't used any more.
        unsafe { ffi::jg_witness_close(&mut self.handle) };
    }
}
