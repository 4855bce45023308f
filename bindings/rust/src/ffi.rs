// SPDX-License-Identifier: MIT
//! The calls of the proved libraries, `crates/escape_c` and `crates/stream_c`. Each block below
//! rests on contracts there, which the names of clauses point to.
//!
//! The libraries state no `requires`. A caller still owes the promises of its types, and Rust's
//! types make them too: a slice is initialized and in bounds for the length that goes with its
//! pointer, no object has more than `isize::MAX` bytes, and a `&mut` shares nothing with any other
//! reference. A slice's pointer is never null, also if the slice is empty. An `alloc: Global` there
//! takes no bytes, so no parameter here stands for it. The declarations are written by hand:
//! nothing compares them with the library's.
use crate::vte::Place;
#[cfg(feature = "oneshot")]
use crate::{Error, Policy};

#[cfg(feature = "oneshot")]
mod chunks;
#[cfg(feature = "oneshot")]
mod screen;
#[cfg(feature = "oneshot")]
mod texts;
#[cfg(feature = "oneshot")]
pub use chunks::{Filter, Normaliser, Page, Sanitizer, SanitizerOptions};
#[cfg(feature = "oneshot")]
pub use screen::{RawCell, RawRequest, Screen, ScreenState};
#[cfg(feature = "oneshot")]
pub use texts::{
    Field, NO_FIELD, NO_ITEM, Said, Sixel, SixelItem, read_kitty, read_osc, read_sixel, read_tcap,
    write_osc,
};

#[cfg(feature = "oneshot")]
extern "C" {
    fn escape_stream_normal(
        bytes: *const u8,
        length: usize,
        out: *mut u8,
        capacity: usize,
        needed: *mut usize,
    ) -> u32;
    fn escape_stream_is_normal(bytes: *const u8, length: usize, answer: *mut bool) -> u32;
    fn escape_stream_filter(
        policy: u32,
        limit: usize,
        bytes: *const u8,
        length: usize,
        out: *mut u8,
        capacity: usize,
        needed: *mut usize,
    ) -> u32;
}

extern "C" {
    fn escape_stream_begin(parser: *mut Parser);
    fn escape_stream_next(
        parser: *mut Parser,
        buffer: *mut u8,
        capacity: usize,
        bytes: *const u8,
        length: usize,
        event: *mut Event,
    ) -> usize;
    fn escape_stream_is_ground(parser: *const Parser) -> bool;
}

#[cfg(feature = "oneshot")]
const DONE: u32 = 0;

#[cfg(feature = "oneshot")]
const NOT_BEGUN: u32 = 3;

/// Writes the normal form.
#[cfg(feature = "oneshot")]
pub fn normal(bytes: &[u8], out: &mut [u8]) -> Result<usize, Error> {
    let mut needed = 0;
    // SAFETY: the references are what the types ask for. Clause `written` says what `out` holds
    // after `DONE`, initialized all of it, clause `needed` what `needed` holds, and `refused` that
    // both are as they were after any other status.
    let status = unsafe {
        escape_stream_normal(
            bytes.as_ptr(),
            bytes.len(),
            out.as_mut_ptr(),
            out.len(),
            &mut needed,
        )
    };
    done(status, needed)
}

/// Says whether it is the same bytes.
#[cfg(feature = "oneshot")]
pub fn is_normal(bytes: &[u8]) -> Result<bool, Error> {
    let mut answer = false;
    // SAFETY: the references are what the types ask for. Clause `equal` says which `bool` `answer`
    // is after `DONE`, and `refused` that it is as it was after any other status.
    let status = unsafe { escape_stream_is_normal(bytes.as_ptr(), bytes.len(), &mut answer) };
    done(status, answer)
}

/// Writes the actions that the policy admits.
#[cfg(feature = "oneshot")]
pub fn filter(policy: Policy, limit: usize, bytes: &[u8], out: &mut [u8]) -> Result<usize, Error> {
    let mut needed = 0;
    // SAFETY: as in `normal`, by the clauses `written`, `needed` and `refused` of this call. It
    // takes any number for a policy: by clause `unknown` one that there is not has a status.
    let status = unsafe {
        escape_stream_filter(
            number(policy),
            limit,
            bytes.as_ptr(),
            bytes.len(),
            out.as_mut_ptr(),
            out.len(),
            &mut needed,
        )
    };
    done(status, needed)
}

// The number of a policy, as the definition `policy_numbered` has it.
#[cfg(feature = "oneshot")]
fn number(policy: Policy) -> u32 {
    match policy {
        Policy::Text => 0,
        Policy::Color => 1,
        Policy::Screen => 2,
        Policy::All => 3,
    }
}

// By clause `refused` the only other status is that of want of memory, if the policy is known.
#[cfg(feature = "oneshot")]
fn done<T>(status: u32, value: T) -> Result<T, Error> {
    if status == DONE {
        Ok(value)
    } else {
        Err(Error::Memory)
    }
}

/// An entry of a control sequence: a number, or a byte that is none, as a separator, a marker or an
/// intermediate.
#[repr(C)]
#[derive(Clone, Copy)]
#[cfg_attr(feature = "serde", derive(serde::Serialize, serde::Deserialize))]
#[cfg_attr(
    feature = "serde",
    serde(from = "crate::serial::Entry", into = "crate::serial::Entry")
)]
pub struct Entry {
    pub(crate) number: i64,
    pub(crate) byte: u8,
    pub(crate) is_byte: bool,
}

impl Entry {
    /// An entry before a call writes it.
    pub(crate) const NONE: Entry = Entry {
        number: 0,
        byte: 0,
        is_byte: false,
    };
}

/// The kinds of events, `ESCAPE_STREAM_NONE` and on.
pub mod kind {
    crate::numbered! { 0;
        NONE TEXT CHARACTER CONTROL ESCAPE CSI OSC DCS DATA DATA_BYTE DCS_END APC FAILED
    }
}

/// An event.
#[derive(Clone)]
#[repr(C)]
pub struct Event {
    pub kind: u32,
    pub byte: u32,
    pub start: usize,
    pub length: usize,
    pub intermediates: [u8; 2],
    pub kept: usize,
    pub has_more: bool,
    pub count: usize,
    pub entries: [Entry; 256],
}

impl Event {
    /// The entries that are kept.
    #[inline(always)]
    pub fn entries(&self) -> &[Entry] {
        self.entries.get(..self.count).unwrap_or(&self.entries)
    }

    /// The intermediates that are kept.
    #[inline(always)]
    pub fn intermediates(&self) -> &[u8] {
        self.intermediates.get(..self.kept).unwrap_or_default()
    }
}

/// A parser. Its fields are the library's. It points to nothing, and the calls speak of the bytes
/// of its buffer, not of their place: so a copy over a copy of the buffer is a parser too.
#[derive(Clone)]
#[repr(C)]
pub struct Parser {
    state: u32,
    pending: u32,
    first: u8,
    second: u8,
    third: u8,
    intermediates: [u8; 2],
    kept: usize,
    has_more: bool,
    form: u32,
    count: usize,
    entries: [Entry; 256],
    is_truncated: bool,
    is_open: bool,
    number: u64,
    text: usize,
    is_over: bool,
    queued_kind: u32,
    queued_value: u32,
    has_failed: bool,
}

// The numbers of some states, `GROUND` and on of `crates/heapless_parser/src/numbers.rt`.
const GROUND: u32 = 0;
const IN_COMMAND: u32 = 3;
const IN_HEADER: u32 = 4;
const IN_DATA: u32 = 5;
const PASSED_OVER: u32 = 6;
const IN_APC: u32 = 7;

impl Parser {
    /// Whether an event is due that takes no bytes. If none is, a call without bytes notes none.
    #[inline(always)]
    pub fn is_due(&self) -> bool {
        self.queued_kind != kind::NONE
    }

    /// Where the next byte comes. An event that is due comes before it.
    #[inline(always)]
    pub fn place(&self) -> Place {
        if self.is_due() || self.has_failed || self.pending != 0 {
            return Place::Inside;
        }
        match self.state {
            GROUND => Place::Ground,
            IN_COMMAND => Place::Text,
            PASSED_OVER | IN_APC => Place::Passed,
            IN_DATA if !self.is_over => Place::Data,
            _ => Place::Inside,
        }
    }

    /// How many bytes of an unfinished string are kept, or of its header.
    #[inline(always)]
    pub fn kept(&self) -> usize {
        match self.state {
            IN_COMMAND | IN_HEADER | IN_APC => self.text,
            _ => 0,
        }
    }

    /// Whether no sequence, no string and no character is unfinished.
    pub fn is_ground(&self) -> bool {
        // SAFETY: the reference is what the type asks for, and the call reads alone.
        unsafe { escape_stream_is_ground(self) }
    }
}

/// No event.
pub fn no_event() -> Event {
    Event {
        kind: 0,
        byte: 0,
        start: 0,
        length: 0,
        intermediates: [0; 2],
        kept: 0,
        has_more: false,
        count: 0,
        entries: [Entry::NONE; 256],
    }
}

/// A parser at the beginning of a stream.
pub fn begun() -> Parser {
    let mut parser = Parser {
        state: 0,
        pending: 0,
        first: 0,
        second: 0,
        third: 0,
        intermediates: [0; 2],
        kept: 0,
        has_more: false,
        form: 0,
        count: 0,
        entries: [Entry::NONE; 256],
        is_truncated: false,
        is_open: false,
        number: 0,
        text: 0,
        is_over: false,
        queued_kind: 0,
        queued_value: 0,
        has_failed: false,
    };
    // SAFETY: the reference is what the type asks for.
    unsafe { escape_stream_begin(&mut parser) };
    parser
}

/// Takes bytes up to the next event, and says how many.
pub fn next(parser: &mut Parser, buffer: &mut [u8], bytes: &[u8], event: &mut Event) -> usize {
    // SAFETY: the references are what the types ask for, and a parser and an event have no values
    // that the call does not take.
    unsafe {
        escape_stream_next(
            parser,
            buffer.as_mut_ptr(),
            buffer.len(),
            bytes.as_ptr(),
            bytes.len(),
            event,
        )
    }
}

/// The characters of a run, which lies in the bytes of the call that noted the event.
pub fn text<'a>(event: &Event, bytes: &'a [u8]) -> &'a str {
    let run = &bytes[event.start..][..event.length];
    // SAFETY: clause `utf8` says so of the place in the bytes of that call.
    unsafe { core::str::from_utf8_unchecked(run) }
}
