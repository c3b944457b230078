//! The adviser, beside a core.

use crate::core::{first_of, Core};
use crate::error::{answered, Error};
use crate::fact::Fact;
use crate::ffi::{self, JgAdvice, JgAdviser, JgSpot};
use crate::functions::Function;
use crate::numbers;
use crate::text;
use crate::value::Value;
use std::ptr::null_mut;

/// A kind of advice.
#[derive(Clone, Copy, Debug, PartialEq, Eq, Hash, PartialOrd, Ord)]
#[repr(u32)]
#[non_exhaustive]
pub enum AdviceKind {
    /// A call after one that may have thrown, and nobody asked whether it did.
    Unchecked = numbers::UNCHECKED,
    /// `JNI_ABORT` throws away what was written to a copy.
    WritesLost = numbers::WRITES_LOST,
    /// A buffer that `JNI_COMMIT` alone released is open at its session's end, or at the end.
    CommittedAndKept = numbers::COMMITTED_AND_KEPT,
    /// A critical region of many calls, or in which objects went.
    LongRegion = numbers::LONG_REGION,
    /// A session ends while its thread owns a monitor.
    MonitorAtDetachment = numbers::MONITOR_KEPT,
    /// FindClass of `Lname;` or of a name with dots.
    DescriptorForName = numbers::DESCRIPTOR,
    /// A frame holds more than ten times the local references that it has room for.
    Growing = numbers::GROWING,
}

impl AdviceKind {
    /// All kinds, in their order.
    pub const ALL: &'static [AdviceKind] = &[
        AdviceKind::Unchecked,
        AdviceKind::WritesLost,
        AdviceKind::CommittedAndKept,
        AdviceKind::LongRegion,
        AdviceKind::MonitorAtDetachment,
        AdviceKind::DescriptorForName,
        AdviceKind::Growing,
    ];

    fn of_number(number: u32) -> Result<AdviceKind, Error> {
        let found = AdviceKind::ALL
            .iter()
            .copied()
            .find(|kind| *kind as u32 == number);
        found.ok_or(Error::Unknown(number.into()))
    }

    /// Its name, as `long region`.
    pub fn name(self) -> Result<String, Error> {
        // SAFETY: the room is as long as is said.
        text::whole(|bytes, room| unsafe { ffi::jg_advice_name(self as u32, bytes, room) })
    }

    /// What is amiss, in a sentence.
    pub fn text(self) -> Result<String, Error> {
        // SAFETY: as above.
        text::whole(|bytes, room| unsafe { ffi::jg_advice_text(self as u32, bytes, room) })
    }

    /// What the earlier call did, in a word.
    pub fn verb(self) -> Result<String, Error> {
        // SAFETY: as above.
        text::whole(|bytes, room| unsafe { ffi::jg_advice_verb(self as u32, bytes, room) })
    }

    /// What helps.
    pub fn help(self) -> Result<String, Error> {
        // SAFETY: as above.
        text::whole(|bytes, room| unsafe { ffi::jg_advice_help(self as u32, bytes, room) })
    }
}

/// A place, the thread that was there, and the function that it called, where it called one.
#[derive(Clone, Copy, Debug, PartialEq, Eq)]
pub struct Spot {
    /// As the caller numbered it; 0 for what is told at the end.
    pub place: u64,
    /// The thread.
    pub thread: u16,
    /// The function.
    pub function: Option<Function>,
}

impl Spot {
    fn of(spot: JgSpot) -> Option<Spot> {
        Some(Spot {
            place: spot.place,
            thread: u16::try_from(spot.thread).ok()?,
            function: Function::of_number(spot.function),
        })
    }
}

/// Something that is legal, and likely wrong.
#[derive(Clone, Copy, Debug, PartialEq, Eq)]
pub struct Advice {
    /// Its kind.
    pub kind: AdviceKind,
    /// Whether it is told at the end.
    pub at_end: bool,
    /// Where it is told, of which thread, and which function it is about.
    pub told: Spot,
    /// The earlier call that made it so, where there is one.
    pub source: Option<Spot>,
}

impl Advice {
    fn of(advice: JgAdvice) -> Result<Advice, Error> {
        Ok(Advice {
            kind: AdviceKind::of_number(advice.kind)?,
            at_end: advice.at_end == 1,
            told: Spot::of(advice.told).ok_or(Error::Unknown(advice.told.thread.into()))?,
            source: Spot::of(advice.source),
        })
    }
}

const NOWHERE: JgSpot = JgSpot {
    place: 0,
    thread: 0,
    function: 0,
};

/// An adviser: it stands beside one core, from that core's opening on, and is told all that passes there. It says what
/// breaks no rule and is likely wrong.
///
/// ```
/// use jg::{AdviceKind, Adviser, Bounds, Core, Fact, Function};
///
/// let mut core = Core::open("version = 1\nillegal_native_access = \"deny\"\n", Bounds::NONE)?;
/// let mut adviser = Adviser::open(1000)?;
/// let env = core.begins(1)?;
/// adviser.fact(&mut core, 1, Fact::Begins { thread: 1 })?;
///
/// // FindClass of a descriptor, at a place that this program numbers 7.
/// let asked = core.ask(1, Some(env), Function::FindClass, &[jg::Value::name()])?;
/// assert_eq!(asked.rule(), None);
/// adviser.call(&mut core, 7, 1, Function::FindClass, &[jg::Value::name()], "Ljava/lang/String;")?;
/// let advice = adviser.advised()?.unwrap();
/// assert_eq!((advice.kind, advice.told.place), (AdviceKind::DescriptorForName, 7));
/// assert_eq!(adviser.advised()?, None);
/// # Ok::<(), jg::Error>(())
/// ```
#[derive(Debug)]
pub struct Adviser {
    handle: JgAdviser,
}

// SAFETY: a handle may be used by any thread, by one call at a time; `&mut self` sees to that. The pointer in it keeps
// `Adviser` from being `Sync`.
unsafe impl Send for Adviser {}

impl Adviser {
    /// An adviser that was told nothing. A critical region is long where more than `most` calls are made in it.
    pub fn open(most: u64) -> Result<Adviser, Error> {
        let mut handle = JgAdviser { at: null_mut() };
        // SAFETY: the handle is closed.
        let answer = unsafe { ffi::jg_adviser_open(most, &mut handle) };
        answered(answer.into())?;
        Ok(Adviser { handle })
    }

    /// The thread calls the function with these operands, which [`Core::ask`] let pass. `name` is the text of the name
    /// that FindClass is handed, and of no weight for others. To be called before the core is told what comes of it, so
    /// before [`Core::ending`].
    pub fn call(
        &mut self,
        core: &mut Core,
        place: u64,
        thread: u16,
        function: Function,
        operands: &[Value],
        name: impl AsRef<[u8]>,
    ) -> Result<(), Error> {
        let name = name.as_ref();
        // SAFETY: both handles are open, nobody else uses them, and operands and name are as many as is said.
        let answer = unsafe {
            ffi::jg_advise_call(
                &mut self.handle,
                core.handle(),
                place,
                thread.into(),
                function.number(),
                first_of(operands),
                operands.len(),
                name.as_ptr(),
                name.len(),
            )
        };
        answered(answer.into()).map(|_| ())
    }

    /// The core took this fact, and no other since: also one that [`Core::did`] or [`Core::ending`] told.
    pub fn fact(&mut self, core: &mut Core, place: u64, fact: Fact) -> Result<(), Error> {
        let fact = fact.numbers();
        // SAFETY: both handles are open, and nobody else uses them.
        let answer = unsafe { ffi::jg_advise_fact(&mut self.handle, core.handle(), place, &fact) };
        answered(answer.into()).map(|_| ())
    }

    /// The core took a [`Core::gone`].
    pub fn gone(&mut self, place: u64) -> Result<(), Error> {
        // SAFETY: the handle is open, and nobody else uses it.
        let answer = unsafe { ffi::jg_advise_gone(&mut self.handle, place) };
        answered(answer.into()).map(|_| ())
    }

    /// Advises on what is left at the end of all.
    pub fn end(&mut self) -> Result<(), Error> {
        // SAFETY: as above.
        let answer = unsafe { ffi::jg_advise_end(&mut self.handle) };
        answered(answer.into()).map(|_| ())
    }

    /// Takes the oldest advice that wasn't taken yet.
    pub fn advised(&mut self) -> Result<Option<Advice>, Error> {
        let mut advice = JgAdvice {
            kind: 0,
            at_end: 0,
            told: NOWHERE,
            source: NOWHERE,
        };
        // SAFETY: as above.
        let answer = unsafe { ffi::jg_advised(&mut self.handle, &mut advice) };
        match answered(answer.into())? {
            0 => Ok(None),
            _ => Advice::of(advice).map(Some),
        }
    }
}

impl Drop for Adviser {
    fn drop(&mut self) {
        // SAFETY: the handle is open, and isn't used any more.
        unsafe { ffi::jg_adviser_close(&mut self.handle) };
    }
}
