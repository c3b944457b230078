//! The guard, which answers scripts.

use crate::error::{answered, Error};
use crate::ffi::{self, JgGuard};
use crate::numbers;
use crate::outcome::Entry;
use crate::rule::Rule;
use crate::text;
use std::ptr::null_mut;

/// A guard: it answers a script line by line, as the program `jg` does, and keeps the journal.
///
/// It may be moved to another thread. Several threads share one behind a lock, as a `Mutex<Guard>`.
///
/// ```
/// let mut guard = jg::Guard::open("version = 1\nillegal_native_access = \"deny\"\n", 1000)?;
/// assert_eq!(guard.call_line("T1 - AttachCurrentThread")?, "T1 - AttachCurrentThread = E1.1\n");
/// assert_eq!(guard.call("T1 E1.1 ExceptionCheck")?.outcome, jg::Outcome::Truth(false));
/// # Ok::<(), jg::Error>(())
/// ```
///
/// ```
/// fn needs_send<T: Send>() {}
/// needs_send::<jg::Guard>();
/// ```
///
/// ```compile_fail
/// fn needs_sync<T: Sync>() {}
/// needs_sync::<jg::Guard>();
/// ```
#[derive(Debug)]
pub struct Guard {
    handle: JgGuard,
    /// The room for a line of the journal.
    entry: Vec<u8>,
}

// SAFETY: a handle may be used by any thread, by one call at a time; `&mut self` sees to that. The pointer in it keeps
// `Guard` from being `Sync`.
unsafe impl Send for Guard {}

impl Guard {
    /// A guard with an empty journal of at most `limit` entries, under the setup that the text states.
    pub fn open(setup: &str, limit: u32) -> Result<Guard, Error> {
        let mut handle = JgGuard { at: null_mut() };
        // SAFETY: the text is as long as is said, and the handle is closed.
        let answer = unsafe {
            ffi::jg_guard_open(
                setup.as_ptr(),
                setup.len(),
                limit,
                numbers::ABI,
                &mut handle,
            )
        };
        answered(answer.into())?;
        Ok(Guard {
            handle,
            entry: vec![0; ffi::JG_LINE],
        })
    }

    /// Answers a line of a script, without its line feed: judges, does and journals its call. The entry's line of the
    /// journal, with its line feed. After [`Error::Unwritten`] the call is made all the same.
    pub fn call_line(&mut self, line: impl AsRef<[u8]>) -> Result<String, Error> {
        let line = line.as_ref();
        // SAFETY: the handle is open, nobody else uses it, and line and room are as long as is said.
        let answer = unsafe {
            ffi::jg_call_line(
                &mut self.handle,
                line.as_ptr(),
                line.len(),
                self.entry.as_mut_ptr(),
                self.entry.len(),
            )
        };
        Ok(text::front(&self.entry, answered(answer)?))
    }

    /// Answers a line as [`Guard::call_line`] does, and reads the outcome of its entry.
    pub fn call(&mut self, line: impl AsRef<[u8]>) -> Result<Entry, Error> {
        let entry = self.call_line(line)?;
        Entry::of_line(&entry).ok_or(Error::Unknown(0))
    }

    /// The line of the journal's newest entry again; empty where the journal is. It is for [`Error::Unwritten`].
    pub fn newest_line(&mut self) -> Result<String, Error> {
        // SAFETY: the handle is open, nobody else uses it, and the room is as long as is said.
        text::whole(|bytes, room| unsafe { ffi::jg_newest_line(&mut self.handle, bytes, room) })
    }

    /// The first rule that the line's call would break now. Nothing is done or journaled.
    pub fn judge_line(&mut self, line: impl AsRef<[u8]>) -> Result<Option<Rule>, Error> {
        let line = line.as_ref();
        // SAFETY: as for `call_line`.
        let answer = unsafe { ffi::jg_judge_line(&mut self.handle, line.as_ptr(), line.len()) };
        answered(answer.into())?;
        Ok(u32::try_from(answer).ok().and_then(Rule::of_number))
    }

    /// What the journal leaves behind, a line each, as `jg --leaks` lists it.
    pub fn leaks(&mut self) -> Result<String, Error> {
        // SAFETY: the handle is open, nobody else uses it, and the room is as long as is said.
        text::whole(|bytes, room| unsafe { ffi::jg_guard_leaks(&mut self.handle, bytes, room) })
    }

    /// Why the newest denied call was denied, as `jg --explain` says it; `None` where none was.
    pub fn explain(&mut self) -> Result<Option<String>, Error> {
        // SAFETY: as above.
        let told = text::whole(|bytes, room| unsafe {
            ffi::jg_guard_explain(&mut self.handle, bytes, room)
        });
        match told {
            Err(Error::Unknown(numbers::NO_RULE)) => Ok(None),
            other => other.map(Some),
        }
    }
}

impl Drop for Guard {
    fn drop(&mut self) {
        // SAFETY: the handle is open, and isn't used any more.
        unsafe { ffi::jg_guard_close(&mut self.handle) };
    }
}
