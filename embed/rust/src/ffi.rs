//! The calls of `jg.h`, as the library exports them. Nothing tests for null here: each pointer that this crate hands in
//! is that of a value or a slice.

use std::ffi::c_void;

/// The most bytes of a line of a journal, with its line feed.
pub const JG_LINE: usize = 65537;

#[repr(C)]
#[derive(Clone, Copy, Debug, PartialEq, Eq)]
pub struct JgValue {
    pub kind: u32,
    pub detail: u32,
    pub number: u64,
}

#[repr(C)]
#[derive(Clone, Copy, Debug, PartialEq, Eq)]
pub struct JgFact {
    pub word: u32,
    pub thread: u32,
    pub name: JgValue,
    pub object: JgValue,
    pub first: u32,
    pub second: u32,
}

#[repr(C)]
#[derive(Clone, Copy, Debug, PartialEq, Eq)]
pub struct JgTicket {
    pub expected: u32,
    pub thread: u32,
    pub fact: JgFact,
}

#[repr(C)]
#[derive(Clone, Copy, Debug, PartialEq, Eq)]
pub struct JgVerdict {
    pub rule: u32,
    pub operand: u32,
    pub ticket: JgTicket,
}

#[repr(C)]
#[derive(Clone, Copy, Debug, PartialEq, Eq)]
pub struct JgBounds {
    pub capacity: i32,
    pub length: i32,
    pub items: i32,
}

#[repr(C)]
#[derive(Clone, Copy, Debug, PartialEq, Eq)]
pub struct JgSpot {
    pub place: u64,
    pub thread: u32,
    pub function: u32,
}

#[repr(C)]
#[derive(Clone, Copy, Debug, PartialEq, Eq)]
pub struct JgAdvice {
    pub kind: u32,
    pub at_end: u32,
    pub told: JgSpot,
    pub source: JgSpot,
}

#[repr(C)]
#[derive(Clone, Copy, Debug, PartialEq, Eq)]
pub struct JgHeld {
    pub place: u64,
    pub by: u32,
    pub thread: u32,
    pub name: JgValue,
}

/// `jg_core`.
#[repr(C)]
#[derive(Debug)]
pub struct JgCore {
    pub at: *mut c_void,
}

/// `jg_witness`.
#[repr(C)]
#[derive(Debug)]
pub struct JgWitness {
    pub at: *mut c_void,
}

/// `jg_guard`.
#[repr(C)]
#[derive(Debug)]
pub struct JgGuard {
    pub at: *mut c_void,
}

/// `jg_adviser`.
#[repr(C)]
#[derive(Debug)]
pub struct JgAdviser {
    pub at: *mut c_void,
}

// All of `jg.h` stands here. `jg_gone` isn't called, since `jg_gone_held` says more; `jg_rule_name` and `jg_error_name`
// are called by tests alone.
#[allow(dead_code)]
extern "C" {
    pub fn jg_core_open(
        text: *const u8,
        size: usize,
        bounds: *const JgBounds,
        version: u32,
        core: *mut JgCore,
    ) -> i32;
    pub fn jg_setup_fault(text: *const u8, size: usize, told: *mut u8, room: usize) -> i64;
    pub fn jg_core_close(core: *mut JgCore) -> i32;
    pub fn jg_ask(
        core: *mut JgCore,
        thread: u32,
        env: *const JgValue,
        function: u32,
        operands: *const JgValue,
        count: usize,
        verdict: *mut JgVerdict,
    ) -> i32;
    pub fn jg_may(
        core: *mut JgCore,
        thread: u32,
        env: *const JgValue,
        function: u32,
        operands: *const JgValue,
        count: usize,
    ) -> i32;
    pub fn jg_ending(
        core: *mut JgCore,
        thread: u32,
        env: *const JgValue,
        function: u32,
        operands: *const JgValue,
        count: usize,
        verdict: *mut JgVerdict,
        given: *mut JgValue,
    ) -> i32;
    pub fn jg_did(
        core: *mut JgCore,
        ticket: *mut JgTicket,
        says: *const JgValue,
        given: *mut JgValue,
    ) -> i32;
    pub fn jg_tells(ticket: *const JgTicket) -> i32;
    pub fn jg_is_in_doubt(ticket: *const JgTicket) -> i32;
    pub fn jg_told(ticket: *const JgTicket, says: *const JgValue, fact: *mut JgFact) -> i32;
    pub fn jg_tell(core: *mut JgCore, fact: *const JgFact, given: *mut JgValue) -> i32;
    pub fn jg_gone(core: *mut JgCore, objects: *const u64, count: usize, held: *mut u64) -> i32;
    pub fn jg_gone_held(
        core: *mut JgCore,
        objects: *const u64,
        count: usize,
        held: *mut JgHeld,
    ) -> i32;
    pub fn jg_question_line(
        core: *mut JgCore,
        thread: u32,
        env: *const JgValue,
        function: u32,
        operands: *const JgValue,
        count: usize,
        line: *mut u8,
        room: usize,
    ) -> i64;
    pub fn jg_fact_line(core: *mut JgCore, fact: *const JgFact, line: *mut u8, room: usize) -> i64;
    pub fn jg_gone_line(
        core: *mut JgCore,
        thread: u32,
        objects: *const u64,
        count: usize,
        line: *mut u8,
        room: usize,
    ) -> i64;
    pub fn jg_bounds_line(core: *mut JgCore, line: *mut u8, room: usize) -> i64;
    pub fn jg_core_leaks(core: *mut JgCore, text: *mut u8, room: usize) -> i64;
    pub fn jg_class_named(core: *mut JgCore, name: *const u8, size: usize) -> i64;
    pub fn jg_native_named(
        core: *mut JgCore,
        class_number: u32,
        name: *const u8,
        size: usize,
        signature: *const u8,
        signature_size: usize,
    ) -> i64;
    pub fn jg_class_of(core: *mut JgCore, kind: u32) -> i64;

    pub fn jg_witness_open(
        text: *const u8,
        size: usize,
        bounds: *const JgBounds,
        fewest: u64,
        version: u32,
        witness: *mut JgWitness,
    ) -> i32;
    pub fn jg_witness_close(witness: *mut JgWitness) -> i32;
    pub fn jg_witness_hand(
        witness: *mut JgWitness,
        word: u64,
        thread: u32,
        kind: u32,
        object: *const JgValue,
        name: *mut JgValue,
    ) -> i32;
    pub fn jg_witness_handed(witness: *mut JgWitness, word: u64, name: *const JgValue) -> i32;
    pub fn jg_witness_lapsed(witness: *mut JgWitness, word: u64) -> i32;
    pub fn jg_witness_tell(
        witness: *mut JgWitness,
        fact: *const JgFact,
        given: *mut JgValue,
    ) -> i32;
    pub fn jg_witness_gone(
        witness: *mut JgWitness,
        objects: *const u64,
        count: usize,
        held: *mut JgHeld,
    ) -> i32;
    pub fn jg_witness_ask(
        witness: *mut JgWitness,
        thread: u32,
        env: *const JgValue,
        function: u32,
        operands: *const JgValue,
        count: usize,
        verdict: *mut JgVerdict,
    ) -> i32;
    pub fn jg_witness_ending(
        witness: *mut JgWitness,
        thread: u32,
        env: *const JgValue,
        function: u32,
        operands: *const JgValue,
        count: usize,
        verdict: *mut JgVerdict,
        given: *mut JgValue,
    ) -> i32;
    pub fn jg_witness_did(
        witness: *mut JgWitness,
        ticket: *mut JgTicket,
        says: *const JgValue,
        word: u64,
        given: *mut JgValue,
    ) -> i32;
    pub fn jg_witness_meaning(witness: *mut JgWitness, word: u64, name: *mut JgValue) -> i32;
    pub fn jg_witness_last(witness: *mut JgWitness, word: u64, name: *mut JgValue) -> i32;

    pub fn jg_adviser_open(most: u64, adviser: *mut JgAdviser) -> i32;
    pub fn jg_adviser_close(adviser: *mut JgAdviser) -> i32;
    pub fn jg_advise_call(
        adviser: *mut JgAdviser,
        core: *mut JgCore,
        place: u64,
        thread: u32,
        function: u32,
        operands: *const JgValue,
        count: usize,
        name: *const u8,
        size: usize,
    ) -> i32;
    pub fn jg_advise_fact(
        adviser: *mut JgAdviser,
        core: *mut JgCore,
        place: u64,
        fact: *const JgFact,
    ) -> i32;
    pub fn jg_advise_gone(adviser: *mut JgAdviser, place: u64) -> i32;
    pub fn jg_advise_end(adviser: *mut JgAdviser) -> i32;
    pub fn jg_advised(adviser: *mut JgAdviser, advice: *mut JgAdvice) -> i32;

    pub fn jg_guard_open(
        text: *const u8,
        size: usize,
        limit: u32,
        version: u32,
        guard: *mut JgGuard,
    ) -> i32;
    pub fn jg_guard_close(guard: *mut JgGuard) -> i32;
    pub fn jg_call_line(
        guard: *mut JgGuard,
        line: *const u8,
        size: usize,
        entry: *mut u8,
        room: usize,
    ) -> i64;
    pub fn jg_newest_line(guard: *mut JgGuard, entry: *mut u8, room: usize) -> i64;
    pub fn jg_judge_line(guard: *mut JgGuard, line: *const u8, size: usize) -> i32;
    pub fn jg_guard_leaks(guard: *mut JgGuard, text: *mut u8, room: usize) -> i64;
    pub fn jg_guard_explain(guard: *mut JgGuard, text: *mut u8, room: usize) -> i64;

    pub fn jg_version(text: *mut u8, room: usize) -> i64;
    pub fn jg_rule_name(rule: u32, text: *mut u8, room: usize) -> i64;
    pub fn jg_rule_text(rule: u32, text: *mut u8, room: usize) -> i64;
    pub fn jg_help_text(rule: u32, text: *mut u8, room: usize) -> i64;
    pub fn jg_advice_name(kind: u32, text: *mut u8, room: usize) -> i64;
    pub fn jg_advice_text(kind: u32, text: *mut u8, room: usize) -> i64;
    pub fn jg_advice_verb(kind: u32, text: *mut u8, room: usize) -> i64;
    pub fn jg_advice_help(kind: u32, text: *mut u8, room: usize) -> i64;
    pub fn jg_error_name(number: i32, text: *mut u8, room: usize) -> i64;
    pub fn jg_is_utf8(text: *const u8, size: usize) -> i32;
}

#[cfg(test)]
mod tests {
    use super::*;
    use std::mem::{align_of, offset_of, size_of};

    #[test]
    fn values_are_laid_out_as_in_c() {
        assert_eq!((size_of::<JgValue>(), align_of::<JgValue>()), (16, 8));
        assert_eq!(offset_of!(JgValue, detail), 4);
        assert_eq!(offset_of!(JgValue, number), 8);
    }

    #[test]
    fn facts_are_laid_out_as_in_c() {
        assert_eq!((size_of::<JgFact>(), align_of::<JgFact>()), (48, 8));
        assert_eq!(offset_of!(JgFact, thread), 4);
        assert_eq!(offset_of!(JgFact, name), 8);
        assert_eq!(offset_of!(JgFact, object), 24);
        assert_eq!(offset_of!(JgFact, first), 40);
        assert_eq!(offset_of!(JgFact, second), 44);
    }

    #[test]
    fn verdicts_are_laid_out_as_in_c() {
        assert_eq!((size_of::<JgTicket>(), size_of::<JgVerdict>()), (56, 64));
        assert_eq!(offset_of!(JgTicket, thread), 4);
        assert_eq!(offset_of!(JgTicket, fact), 8);
        assert_eq!(offset_of!(JgVerdict, operand), 4);
        assert_eq!(offset_of!(JgVerdict, ticket), 8);
    }

    #[test]
    fn advice_is_laid_out_as_in_c() {
        assert_eq!((size_of::<JgSpot>(), size_of::<JgAdvice>()), (16, 40));
        assert_eq!(offset_of!(JgSpot, function), 12);
        assert_eq!(offset_of!(JgAdvice, told), 8);
        assert_eq!(offset_of!(JgAdvice, source), 24);
    }

    #[test]
    fn what_is_held_is_laid_out_as_in_c() {
        assert_eq!((size_of::<JgHeld>(), align_of::<JgHeld>()), (32, 8));
        assert_eq!(offset_of!(JgHeld, by), 8);
        assert_eq!(offset_of!(JgHeld, thread), 12);
        assert_eq!(offset_of!(JgHeld, name), 16);
    }

    #[test]
    fn handles_and_bounds_are_laid_out_as_in_c() {
        assert_eq!((size_of::<JgBounds>(), align_of::<JgBounds>()), (12, 4));
        assert_eq!(offset_of!(JgBounds, items), 8);
        assert_eq!(size_of::<JgCore>(), size_of::<usize>());
        assert_eq!(size_of::<JgWitness>(), size_of::<usize>());
        assert_eq!(size_of::<JgGuard>(), size_of::<usize>());
        assert_eq!(size_of::<JgAdviser>(), size_of::<usize>());
    }
}
