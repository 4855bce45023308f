// SPDX-License-Identifier: MIT
//! A parser that takes a stream in chunks.
use crate::ffi::kind;
use crate::vte::Place;
use crate::{Error, ffi};
use alloc::boxed::Box;
use alloc::vec;
use alloc::vec::Vec;
use core::fmt;

// The limit of a parser whose buffer grows, at first, and the bytes of U+FFFD.
const FIRST_LIMIT: usize = 1 << 14;
const MOST_ADDED: usize = 3;
// So many bytes fit into a half that may grow, if none is kept there.
const SURE: usize = FIRST_LIMIT / MOST_ADDED - MOST_ADDED;

/// A parser of a stream that comes in chunks. It takes memory when it is made, and none after that,
/// but for one that is [`growing`](Parser::growing).
///
/// ```
/// use escape_stream::{Event, Parser};
///
/// let mut text = String::new();
/// let mut parser = Parser::new();
/// for chunk in [&b"caf\xc3"[..], b"\xa9 \x1b[1;3", b"1mred"] {
///     parser.advance(chunk, |event| match event {
///         Event::Text(run) => text.push_str(run),
///         Event::Character(c) => text.push(c),
///         Event::Csi { entries, byte, .. } => {
///             assert_eq!((entries[2].number(), byte), (Some(31), b'm'));
///         }
///         _ => {}
///     })?;
/// }
/// assert_eq!(text, "caf\u{e9} red");
/// # Ok::<(), escape_stream::Error>(())
/// ```
#[derive(Clone)]
pub struct Parser {
    raw: Box<ffi::Parser>,
    event: Box<ffi::Event>,
    // Its lower half keeps an unfinished string, and its upper half has one that is handed out.
    buffer: Vec<u8>,
    // How long a half may become.
    limit: usize,
    // The last byte of data that came by itself.
    byte: u8,
}

/// A part of a stream. A run may come in several, or its characters and bytes one by one.
#[derive(Clone, Copy, Debug, PartialEq)]
#[non_exhaustive]
pub enum Event<'a> {
    /// A run of characters, none of them a control.
    Text(&'a str),
    /// A character that two chunks share, or U+FFFD for bytes that are no UTF-8.
    Character(char),
    /// A control character of C0 or C1.
    Control(u8),
    /// An escape sequence.
    Escape {
        /// The first two intermediates.
        intermediates: &'a [u8],
        /// Whether more came.
        has_more: bool,
        /// The final byte.
        byte: u8,
    },
    /// A control sequence.
    Csi {
        /// The first 256 entries.
        entries: &'a [Entry],
        /// Whether more came.
        has_more: bool,
        /// The final byte.
        byte: u8,
    },
    /// The text of an operating system command. `osc::OperatingSystemCommand::parse` reads it, with
    /// the feature `oneshot`.
    Osc(&'a [u8]),
    /// A device control string begins.
    Dcs {
        /// The bytes that write its parameters: digits and `;`.
        parameters: &'a [u8],
        /// The first two intermediates, the marker first.
        intermediates: &'a [u8],
        /// Whether more came.
        has_more: bool,
        /// The final byte.
        byte: u8,
    },
    /// Bytes of its data.
    Data(&'a [u8]),
    /// It ends.
    DcsEnd,
    /// The text of an application program command.
    Apc(&'a [u8]),
    /// A string, or the header of a device control string, ended that was longer than the
    /// limit: its event is not handed out, nor are the data of the device control string.
    Limit,
}

impl<'a> Event<'a> {
    /// The text of a run of characters, or of a single one, which is written to `room`.
    ///
    /// ```
    /// use escape_stream::Parser;
    ///
    /// let mut text = String::new();
    /// let mut parser = Parser::new();
    /// for chunk in [&b"caf\xc3"[..], b"\xa9\x1b[m\xff"] {
    ///     parser.advance(chunk, |event| {
    ///         text += event.text(&mut [0; 4]).unwrap_or_default();
    ///     })?;
    /// }
    /// assert_eq!(text, "caf\u{e9}\u{fffd}");
    /// # Ok::<(), escape_stream::Error>(())
    /// ```
    pub fn text<'b>(&self, room: &'b mut [u8; 4]) -> Option<&'b str>
    where
        'a: 'b,
    {
        match *self {
            Event::Text(run) => Some(run),
            Event::Character(c) => Some(c.encode_utf8(room)),
            Event::Control(_) | Event::Escape { .. } | Event::Csi { .. } => None,
            Event::Osc(_) | Event::Dcs { .. } | Event::Data(_) | Event::DcsEnd => None,
            Event::Apc(_) | Event::Limit => None,
        }
    }
}

pub use crate::ffi::Entry;

impl Entry {
    /// The entry of a number.
    pub fn of_number(number: i64) -> Entry {
        Entry {
            number,
            ..Entry::NONE
        }
    }

    /// The entry of a byte that is no number.
    pub fn of_byte(byte: u8) -> Entry {
        Entry {
            byte,
            is_byte: true,
            ..Entry::NONE
        }
    }

    /// The number, held at the greatest `i64`.
    pub fn number(self) -> Option<i64> {
        (!self.is_byte).then_some(self.number)
    }

    /// The byte.
    pub fn byte(self) -> Option<u8> {
        self.is_byte.then_some(self.byte)
    }
}

impl PartialEq for Entry {
    fn eq(&self, other: &Entry) -> bool {
        (self.number(), self.byte()) == (other.number(), other.byte())
    }
}

impl Eq for Entry {}

impl fmt::Debug for Entry {
    fn fmt(&self, f: &mut fmt::Formatter<'_>) -> fmt::Result {
        match (self.number(), self.byte()) {
            (Some(number), _) => write!(f, "{number}"),
            (_, byte) => write!(f, "{:?}", byte.map(char::from)),
        }
    }
}

impl Default for Parser {
    fn default() -> Parser {
        Parser::new()
    }
}

impl fmt::Debug for Parser {
    fn fmt(&self, f: &mut fmt::Formatter<'_>) -> fmt::Result {
        f.debug_struct("Parser")
            .field("limit", &self.limit)
            .field("is_ground", &self.is_ground())
            .finish_non_exhaustive()
    }
}

impl Parser {
    /// A parser at the beginning of a stream that hands out strings of up to 65,536 bytes: an
    /// image of kitty has at most 4,096 of payload beside its keys, and long texts of the clipboard
    /// need more.
    pub fn new() -> Parser {
        Parser::with_limit(1 << 16)
    }

    /// A parser at the beginning of a stream that hands out strings of up to `limit` bytes: texts
    /// of commands, and parameter bytes of device control strings. It passes over longer ones, and
    /// hands out [`Event::Limit`] in the place of each. It takes two bytes for each of the
    /// limit.
    ///
    /// # Panics
    ///
    /// If there cannot be as much memory, as with [`Vec::with_capacity`].
    /// [`try_with_limit`](Parser::try_with_limit) returns an error.
    pub fn with_limit(limit: usize) -> Parser {
        Parser::over(vec![0; limit.saturating_mul(2)])
    }

    /// The same, if there is as much memory.
    ///
    /// # Errors
    ///
    /// [`Error::Memory`] if a request for memory was refused.
    ///
    /// ```
    /// use escape_stream::{Error, Parser};
    ///
    /// assert_eq!(Parser::try_with_limit(usize::MAX).err(), Some(Error::Memory));
    /// ```
    pub fn try_with_limit(limit: usize) -> Result<Parser, Error> {
        let mut buffer = Vec::new();
        let length = limit.saturating_mul(2);
        buffer
            .try_reserve_exact(length)
            .map_err(|_| Error::Memory)?;
        buffer.resize(length, 0);
        Ok(Parser::over(buffer))
    }

    /// The same, in memory that grows with a string up to the limit: two bytes for each, and 40 KiB
    /// for short ones. If there cannot be as much memory, longer strings are passed over.
    ///
    /// ```
    /// use escape_stream::{Event, Parser};
    ///
    /// let mut lengths = Vec::new();
    /// let mut parser = Parser::growing(1 << 24);
    /// let stream = [&b"\x1b]52;c;"[..], &vec![b'A'; 1_000_000], b"\x07"].concat();
    /// for chunk in stream.chunks(1000) {
    ///     parser.advance(chunk, |event| match event {
    ///         Event::Osc(text) => lengths.push(text.len()),
    ///         _ => {}
    ///     })?;
    /// }
    /// assert_eq!(lengths, [1_000_005]);
    /// # Ok::<(), escape_stream::Error>(())
    /// ```
    pub fn growing(limit: usize) -> Parser {
        let mut parser = Parser::with_limit(limit.min(FIRST_LIMIT));
        parser.limit = limit;
        parser
    }

    fn over(buffer: Vec<u8>) -> Parser {
        Parser {
            raw: Box::new(ffi::begun()),
            event: Box::new(ffi::no_event()),
            limit: buffer.len() / 2,
            buffer,
            byte: 0,
        }
    }

    /// Takes the next bytes of the stream, and calls `act` with each event.
    pub fn advance(&mut self, bytes: &[u8], mut act: impl FnMut(Event<'_>)) -> Result<(), Error> {
        let act = |event: Event<'_>, _: &[u8]| {
            act(event);
            true
        };
        self.advance_while(bytes, act).map(|_| ())
    }

    /// Takes the next bytes of the stream, calls `act` with each event and the bytes that were
    /// taken for it, and returns how many were taken: all of them, or up to an event for which
    /// `act` is false. If a byte has two events, the second, for which none is taken, is handed out
    /// then too.
    ///
    /// # Errors
    ///
    /// As [`advance`](Parser::advance).
    #[inline]
    pub fn advance_while(
        &mut self,
        bytes: &[u8],
        mut act: impl FnMut(Event<'_>, &[u8]) -> bool,
    ) -> Result<usize, Error> {
        let mut rest = bytes;
        let mut count = 0;
        loop {
            let taken = self.step(rest);
            match self.event.kind {
                kind::NONE => return Ok(count + taken),
                kind::FAILED => return Err(Error::Failed),
                _ => {}
            }
            let (chunk, after) = rest.split_at(taken);
            count += taken;
            rest = if act(self.noted(rest), chunk) {
                after
            } else {
                &[]
            };
            if rest.is_empty() && !self.is_due() {
                return Ok(count);
            }
        }
    }

    /// Whether no sequence, no string and no character is unfinished after the bytes so far.
    ///
    /// ```
    /// let mut parser = escape_stream::Parser::new();
    /// parser.advance(b"a\x1b[1", |_| {})?;
    /// assert!(!parser.is_ground());
    /// parser.advance(b"m", |_| {})?;
    /// assert!(parser.is_ground());
    /// # Ok::<(), escape_stream::Error>(())
    /// ```
    pub fn is_ground(&self) -> bool {
        self.raw.is_ground()
    }

    // Whether an event is due that takes no bytes. If none is, a step without bytes notes none.
    #[inline(always)]
    pub(crate) fn is_due(&self) -> bool {
        self.raw.is_due()
    }

    // Where the next byte comes.
    #[inline(always)]
    pub(crate) fn place(&self) -> Place {
        self.raw.place()
    }

    // How long a string may be that is handed out.
    #[inline(always)]
    pub(crate) fn limit(&self) -> usize {
        self.limit
    }

    // Takes bytes up to the next event, and returns how many.
    #[inline(always)]
    pub(crate) fn step(&mut self, bytes: &[u8]) -> usize {
        let is_grown = self.buffer.len() / 2 >= self.limit;
        if is_grown || bytes.len() <= SURE && self.raw.kept() == 0 {
            ffi::next(&mut self.raw, &mut self.buffer, bytes, &mut self.event)
        } else {
            self.step_growing(bytes)
        }
    }

    // The same over a buffer that may grow: no call takes bytes by which a string could become
    // longer than its half, so none is passed over before it is as long as the limit. A larger
    // buffer begins with the smaller one, as the library wants it.
    fn step_growing(&mut self, bytes: &[u8]) -> usize {
        let mut count = 0;
        loop {
            let rest = &bytes[count..];
            let part = &rest[..self.room().min(rest.len())];
            let taken = ffi::next(&mut self.raw, &mut self.buffer, part, &mut self.event);
            if matches!(self.event.kind, kind::TEXT | kind::DATA) {
                self.event.start += count;
            }
            count += taken;
            if self.event.kind != kind::NONE || count == bytes.len() {
                return count;
            }
        }
    }

    // How many bytes fit for sure, and some: each adds at most U+FFFD to a string, and so do those
    // of a character that is unfinished. If few would fit the buffer grows.
    #[inline]
    fn room(&mut self) -> usize {
        let half = self.buffer.len() / 2;
        let kept = self.raw.kept();
        if kept > half / 2 && half < self.limit {
            self.grow(half.saturating_mul(2).min(self.limit));
            return self.room();
        }
        if half == self.limit {
            return usize::MAX;
        }
        ((half - kept) / MOST_ADDED)
            .saturating_sub(MOST_ADDED)
            .max(1)
    }

    #[cold]
    fn grow(&mut self, half: usize) {
        let length = half.saturating_mul(2);
        let more = length - self.buffer.len();
        if self.buffer.try_reserve_exact(more).is_ok() {
            self.buffer.resize(length, 0);
        } else {
            self.limit = self.buffer.len() / 2;
        }
    }

    // The notes of the last call.
    #[cfg(feature = "oneshot")]
    #[inline(always)]
    pub(crate) fn raw_event(&self) -> &ffi::Event {
        &self.event
    }

    // The event of a call that was given these bytes.
    #[inline(always)]
    pub(crate) fn noted<'a>(&'a mut self, bytes: &'a [u8]) -> Event<'a> {
        self.byte = self.event.byte as u8;
        let event = &*self.event;
        let has_more = event.has_more;
        let byte = event.byte as u8;
        match event.kind {
            kind::TEXT => Event::Text(ffi::text(event, bytes)),
            kind::CHARACTER => {
                Event::Character(char::from_u32(event.byte).unwrap_or(char::REPLACEMENT_CHARACTER))
            }
            kind::CONTROL => Event::Control(byte),
            kind::ESCAPE => Event::Escape {
                intermediates: event.intermediates(),
                has_more,
                byte,
            },
            kind::CSI => Event::Csi {
                entries: event.entries(),
                has_more,
                byte,
            },
            kind::OSC => Event::Osc(self.string()),
            kind::DCS => Event::Dcs {
                parameters: self.string(),
                intermediates: event.intermediates(),
                has_more,
                byte,
            },
            kind::DATA => Event::Data(&bytes[event.start..][..event.length]),
            kind::DATA_BYTE => Event::Data(core::slice::from_ref(&self.byte)),
            kind::DCS_END => Event::DcsEnd,
            kind::APC => Event::Apc(self.string()),
            _ => Event::Limit,
        }
    }

    // A text, in the upper half of the buffer.
    #[inline]
    pub(crate) fn string(&self) -> &[u8] {
        &self.buffer[self.buffer.len() / 2..][..self.event.length]
    }
}
