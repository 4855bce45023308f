// SPDX-License-Identifier: MIT
//! The calls of the crate `vte`, version 0.15, over the proved [parser](crate::Parser), for
//! programs that are written for it.
//!
//! Such a program names this module in place of the crate: `use escape_stream::vte;`. The names
//! below, their signatures and the meaning of each call are those of `vte`. `docs/EMBEDDING.md` of
//! the repository lists the streams that this module reads otherwise.
//!
//! ```
//! use escape_stream::vte::{Params, Parser, Perform};
//!
//! #[derive(Default)]
//! struct Screen {
//!     text: String,
//!     colors: Vec<u16>,
//! }
//!
//! impl Perform for Screen {
//!     fn print(&mut self, c: char) {
//!         self.text.push(c);
//!     }
//!
//!     fn csi_dispatch(&mut self, params: &Params, _: &[u8], _ignore: bool, action: char) {
//!         if action == 'm' {
//!             self.colors.extend(params.iter().map(|param| param[0]));
//!         }
//!     }
//! }
//!
//! let mut screen = Screen::default();
//! let mut parser = Parser::new();
//! for chunk in [&b"caf\xc3"[..], b"\xa9 \x1b[1;3", b"1mred"] {
//!     parser.advance(&mut screen, chunk);
//! }
//! assert_eq!((&screen.text[..], &screen.colors[..]), ("caf\u{e9} red", &[1, 31][..]));
//! ```
use crate::{Entry, Event};
use held::{Held, Single, before_tail, tail};
use plain::{Plain, Start, call_sequence};

pub mod by_byte;
mod held;
mod plain;

pub(crate) use held::Place;

pub use crate::params::{Params, ParamsIter};

const MOST_INTERMEDIATES: usize = 2;
const MOST_PARTS: usize = 16;
const MOST_OSC_RAW: usize = 1024;
const DEFAULT_LIMIT: usize = 1 << 20;
const BELL: u8 = 0x07;
const ESCAPE: u8 = 0x1b;
// A chunk of so many bytes is short: often it ends in a sequence, which costs less to hold than to
// have the parser take in two chunks.
const MOST_SHORT: usize = 32;

/// The calls for the parts of a stream. By default a call does nothing.
pub trait Perform {
    /// A character. A long run of them is a call for each.
    fn print(&mut self, _c: char) {}

    /// A control character of C0 or C1.
    fn execute(&mut self, _byte: u8) {}

    /// A device control string begins. Its marker, if it has one, is the first intermediate.
    ///
    /// `ignore` says that more than two intermediates, or more than 32 parameters, came: the first
    /// are there.
    fn hook(&mut self, _params: &Params, _intermediates: &[u8], _ignore: bool, _action: char) {}

    /// A byte of the data of the device control string that began last.
    fn put(&mut self, _byte: u8) {}

    /// That string ends.
    fn unhook(&mut self) {}

    /// An operating system command: the first 16 of its parts, which `;` separates.
    ///
    /// `bell_terminated` says that BEL ended it, so that an answer can end in the same way.
    fn osc_dispatch(&mut self, _params: &[&[u8]], _bell_terminated: bool) {}

    /// A control sequence. Its marker, if it has one, is the first intermediate.
    ///
    /// `ignore` says that more than two intermediates, or more than 32 parameters, came: the first
    /// are there.
    fn csi_dispatch(
        &mut self,
        _params: &Params,
        _intermediates: &[u8],
        _ignore: bool,
        _action: char,
    ) {
    }

    /// An escape sequence.
    ///
    /// `ignore` says that more than two intermediates came: the first two are there.
    fn esc_dispatch(&mut self, _intermediates: &[u8], _ignore: bool, _byte: u8) {}

    /// Whether [`Parser::advance_until_terminated`] stops here. The parser asks before the first
    /// byte and after each call above, but for a run of characters, or of data, only after the
    /// last.
    #[inline(always)]
    fn terminated(&self) -> bool {
        false
    }
}

/// A parser of a stream that comes in chunks. It takes some 40 KiB of memory when it is made, and
/// more when a string grows past 8 KiB.
///
/// The number is the limit of a parser that [`Parser::new_with_size`] makes, and says nothing of
/// any other: in `vte` too it has no meaning with the feature `std`.
#[derive(Clone, Debug)]
pub struct Parser<const OSC_RAW_BUF_SIZE: usize = MOST_OSC_RAW> {
    stream: crate::Parser,
    params: Params,
    held: Held,
    has_failed: bool,
}

impl<const OSC_RAW_BUF_SIZE: usize> Default for Parser<OSC_RAW_BUF_SIZE> {
    fn default() -> Self {
        Parser::of_limit(DEFAULT_LIMIT)
    }
}

impl Parser {
    /// A parser at the beginning of a stream that hands out strings of up to 1,048,576 bytes.
    ///
    /// `vte` hands out longer ones too. The memory grows with a string, as in `vte`, up to two
    /// bytes for each byte of the limit; it stays for the next string.
    pub fn new() -> Parser {
        Parser::default()
    }

    /// A parser at the beginning of a stream that hands out strings of up to `limit` bytes: texts
    /// of operating system commands, and parameter bytes of device control strings. It passes over
    /// longer ones. The data of a device control string has no limit.
    pub fn with_limit(limit: usize) -> Parser {
        Parser::of_limit(limit)
    }
}

impl<const OSC_RAW_BUF_SIZE: usize> Parser<OSC_RAW_BUF_SIZE> {
    /// A parser at the beginning of a stream that hands out strings of up to `OSC_RAW_BUF_SIZE`
    /// bytes, as [`Parser::with_limit`] has it. `vte` hands out the beginning of a longer command.
    ///
    /// ```
    /// let mut parser = escape_stream::vte::Parser::<64>::new_with_size();
    /// # struct Nothing;
    /// # impl escape_stream::vte::Perform for Nothing {}
    /// # parser.advance(&mut Nothing, b"a");
    /// ```
    pub fn new_with_size() -> Self {
        Parser::of_limit(OSC_RAW_BUF_SIZE)
    }

    fn of_limit(limit: usize) -> Self {
        Parser {
            stream: crate::Parser::growing(limit),
            params: Params::default(),
            held: Held::new(),
            has_failed: false,
        }
    }

    /// Takes the next bytes of the stream, and makes the calls for them.
    ///
    /// After a [failure](Parser::has_failed) it makes none.
    #[inline]
    pub fn advance<P: Perform>(&mut self, performer: &mut P, bytes: &[u8]) {
        if let [byte] = *bytes {
            self.take_byte(performer, byte);
        } else {
            self.take(performer, bytes, |_| false);
        }
    }

    /// Takes the next bytes of the stream until [`Perform::terminated`] is true, makes the calls
    /// for them, and returns how many bytes it took. The bytes after them are for the next call.
    ///
    /// After a [failure](Parser::has_failed) it makes no calls and takes all bytes, so that a loop
    /// over what is left comes to its end.
    #[inline]
    #[must_use = "the bytes that were not taken are still to be handed in"]
    pub fn advance_until_terminated<P: Perform>(
        &mut self,
        performer: &mut P,
        bytes: &[u8],
    ) -> usize {
        self.take(performer, bytes, P::terminated)
    }

    /// Whether the parser failed, as [`Error::Failed`](crate::Error::Failed) has it: then it makes
    /// no calls any more. No clause excludes it, and no test has met it.
    ///
    /// The calls of `vte` return nothing that could say so, and these keep its signatures. Nor do
    /// they panic: a terminal keeps what it shows, and may begin a new parser.
    pub fn has_failed(&self) -> bool {
        self.has_failed
    }

    // Takes some bytes, or a byte after which it may be asked to stop.
    #[inline]
    fn take<P: Perform>(
        &mut self,
        performer: &mut P,
        bytes: &[u8],
        stops: impl Fn(&P) -> bool,
    ) -> usize {
        let mut count = 0;
        while count < bytes.len() && !stops(performer) {
            let rest = &bytes[count..];
            let taken = if rest.len() > MOST_SHORT {
                self.take_events(performer, rest, |it| !stops(it))
            } else {
                self.take_short(performer, rest)
            };
            let Some(taken) = taken else {
                self.has_failed = true;
                return bytes.len();
            };
            count += taken;
        }
        count
    }

    // Takes a byte by itself. It is all of a call in a stream that comes byte by byte, so it stands
    // apart from the loops over bytes.
    #[inline]
    fn take_byte<P: Perform>(&mut self, performer: &mut P, byte: u8) {
        let single = self.held.take(byte);
        self.act(performer, byte, single);
    }

    // Takes bytes event by event while `goes_on` is true, or all, and says how many; nothing if the
    // parser failed.
    #[inline(never)]
    fn take_events<P: Perform>(
        &mut self,
        performer: &mut P,
        bytes: &[u8],
        goes_on: impl Fn(&P) -> bool,
    ) -> Option<usize> {
        if self.held.is_some() {
            self.take_held(performer);
        }
        let params = &mut self.params;
        let taken = self.stream.advance_while(bytes, |event, taken| {
            call(params, performer, event, taken);
            goes_on(performer)
        });
        self.held.clear(self.stream.place());
        taken.ok()
    }

    // Takes some bytes of a short chunk: a run of characters or of data, a control, bytes to hold,
    // or those of a sequence. A call of the parser costs more than so few bytes.
    #[inline]
    fn take_short<P: Perform>(&mut self, performer: &mut P, bytes: &[u8]) -> Option<usize> {
        if let [byte] = *bytes {
            self.take_byte(performer, byte);
            return Some(1);
        }
        if self.held.is_open() {
            let (count, single) = self.held.take_run(bytes);
            self.act(performer, bytes[0], single);
            return Some(count);
        }
        let place = self.held.place();
        if place != Place::Ground || bytes[0] != ESCAPE {
            let count = take_plain(performer, bytes, place);
            if count > 0 {
                return Some(count);
            }
        }
        if place != Place::Ground {
            return self.take_events(performer, before_tail(bytes), |_| false);
        }
        match Start::of(bytes, self.stream.limit()) {
            Start::Whole(plain, count) => {
                self.call(performer, plain);
                return Some(count);
            }
            Start::Begun => {
                self.held.begin(bytes);
                return Some(bytes.len());
            }
            Start::Other => {}
        }
        match *bytes {
            [ESCAPE, ..] if tail(bytes) == bytes.len() => {
                self.held.begin(bytes);
                return Some(bytes.len());
            }
            // The beginning of a character.
            [first @ 0xc2..=0xf4, ..] if bytes.len() < 4 => {
                let single = self.held.take(first);
                self.act(performer, first, single);
                return Some(1);
            }
            _ => {}
        }
        self.take_events(performer, before_tail(bytes), |_| false)
    }

    // Makes the call for a byte by itself, or those for the bytes that are held.
    #[inline]
    fn act<P: Perform>(&mut self, performer: &mut P, byte: u8, single: Single) {
        match single {
            Single::Print(c) => performer.print(c),
            Single::Execute => performer.execute(byte),
            Single::Put => performer.put(byte),
            Single::Held => {}
            Single::Due => self.take_held(performer),
        }
    }

    // Makes the call for a sequence or a command that is all in one chunk.
    #[inline]
    fn call<P: Perform>(&mut self, performer: &mut P, plain: Plain<'_>) {
        plain.call(&mut self.params, performer);
        if plain.ends_in_escape() {
            self.held.begin(&[ESCAPE]);
        }
    }

    // Takes the bytes that are held.
    #[inline(never)]
    fn take_held<P: Perform>(&mut self, performer: &mut P) {
        let params = &mut self.params;
        if let [ESCAPE, b'[', ref inner @ ..] = *self.held.bytes() {
            if call_sequence(params, performer, inner) {
                self.held.clear(Place::Ground);
                return;
            }
        } else if let Start::Whole(plain, _) = Start::of(self.held.bytes(), self.stream.limit()) {
            plain.call(params, performer);
            if plain.ends_in_escape() {
                self.held.begin(&[ESCAPE]);
            } else {
                self.held.clear(Place::Ground);
            }
            return;
        }
        let taken = self
            .stream
            .advance_while(self.held.bytes(), |event, taken| {
                call(params, performer, event, taken);
                true
            });
        self.has_failed |= taken.is_err();
        self.held.clear(self.stream.place());
    }
}

// Takes a run of characters or a control at the beginning of bytes where nothing is unfinished, or
// a run in the data of a device control string, and says how many bytes these are.
#[inline]
fn take_plain<P: Perform>(performer: &mut P, bytes: &[u8], place: Place) -> usize {
    let run = bytes.iter().take_while(|it| matches!(it, 0x20..=0x7e));
    match (place, bytes) {
        (Place::Ground, [byte @ (0x00..=0x1a | 0x1c..=0x1f), ..]) => {
            performer.execute(*byte);
            1
        }
        (Place::Ground, [0xc2..=0xf4, ..]) => print_characters(performer, bytes),
        (Place::Ground, _) => run.map(|it| performer.print(char::from(*it))).count(),
        (Place::Data, _) => run.map(|it| performer.put(*it)).count(),
        (Place::Text | Place::Passed | Place::Inside, _) => 0,
    }
}

// Prints the characters at the beginning of bytes, and says how many bytes they have.
#[inline]
fn print_characters<P: Perform>(performer: &mut P, bytes: &[u8]) -> usize {
    let mut rest = bytes;
    while let Some(c) = first_character(rest) {
        performer.print(c);
        rest = &rest[c.len_utf8()..];
    }
    bytes.len() - rest.len()
}

// The character at the beginning of bytes, if all of it is there and it is no control.
#[inline]
fn first_character(bytes: &[u8]) -> Option<char> {
    let add = |number: u32, byte: u8| number << 6 | u32::from(byte & 0x3f);
    let (least, number) = match *bytes {
        [a @ 0x20..=0x7e, ..] => return Some(a.into()),
        [a @ 0xc2..=0xdf, b @ 0x80..=0xbf, ..] => (0xa0, add(u32::from(a & 0x1f), b)),
        [a @ 0xe0..=0xef, b @ 0x80..=0xbf, c @ 0x80..=0xbf, ..] => {
            (0x800, add(add(u32::from(a & 0xf), b), c))
        }
        [
            a @ 0xf0..=0xf4,
            b @ 0x80..=0xbf,
            c @ 0x80..=0xbf,
            d @ 0x80..=0xbf,
            ..,
        ] => (0x10000, add(add(add(u32::from(a & 7), b), c), d)),
        _ => return None,
    };
    char::from_u32(number).filter(|_| number >= least)
}

// Makes the call for an event, or one for each character or byte of a run. The bytes are those that
// were taken for it.
#[inline]
fn call<P: Perform>(params: &mut Params, performer: &mut P, event: Event<'_>, taken: &[u8]) {
    match event {
        Event::Text(run) => print_all(performer, run),
        Event::Character(c) => performer.print(c),
        Event::Control(byte) => performer.execute(byte),
        Event::Escape {
            intermediates,
            has_more,
            byte,
        } => performer.esc_dispatch(intermediates, has_more, byte),
        Event::Csi {
            entries,
            has_more,
            byte,
        } => call_csi(params, performer, entries, has_more, byte),
        // The bell is the only end of a command that is this byte, and no other byte of a command
        // is.
        Event::Osc(text) => call_osc(performer, text, taken.last() == Some(&BELL)),
        Event::Dcs {
            parameters,
            intermediates,
            has_more,
            byte,
        } => {
            let has_room = read_parameters(params, parameters);
            performer.hook(params, intermediates, has_more || !has_room, byte.into());
        }
        Event::Data(bytes) => bytes.iter().for_each(|byte| performer.put(*byte)),
        Event::DcsEnd => performer.unhook(),
        Event::Apc(_) | Event::Limit => {}
    }
}

// Each byte of a run of ASCII is a character, which costs less than to read UTF-8.
#[inline]
fn print_all<P: Perform>(performer: &mut P, run: &str) {
    if run.is_ascii() {
        run.bytes().for_each(|byte| performer.print(byte.into()));
    } else {
        run.chars().for_each(|c| performer.print(c));
    }
}

// A control sequence. Its entries are a marker, numbers with separators, and intermediates.
fn call_csi<P: Perform>(
    params: &mut Params,
    performer: &mut P,
    entries: &[Entry],
    has_more: bool,
    byte: u8,
) {
    let mut intermediates = [0; MOST_INTERMEDIATES];
    let mut kept = 0;
    let mut ignore = has_more;
    let mut number = 0;
    params.clear();
    for entry in entries {
        match entry.byte() {
            None => number = entry.number().map_or(0, saturated),
            Some(separator @ (b';' | b':')) => {
                ignore |= !params.push(number, separator == b':');
                number = 0;
            }
            Some(other) if kept < MOST_INTERMEDIATES => {
                intermediates[kept] = other;
                kept += 1;
            }
            Some(_) => ignore = true,
        }
    }
    ignore |= !params.push(number, false);
    performer.csi_dispatch(params, &intermediates[..kept], ignore, byte.into());
}

fn saturated(number: i64) -> u16 {
    number.clamp(0, u16::MAX.into()) as u16
}

// A command. Its loop over bytes needs the registers that the loop over events has.
#[inline(never)]
fn call_osc<P: Perform>(performer: &mut P, text: &[u8], bell_terminated: bool) {
    let mut parts = [&[][..]; MOST_PARTS];
    let mut count = 0;
    for (place, part) in parts.iter_mut().zip(text.split(|byte| *byte == b';')) {
        *place = part;
        count += 1;
    }
    performer.osc_dispatch(&parts[..count], bell_terminated);
}

// The parameters that digits and `;` write. It says whether there was room for all.
fn read_parameters(params: &mut Params, bytes: &[u8]) -> bool {
    params.clear();
    bytes
        .split(|byte| *byte == b';')
        .all(|digits| params.push(digits.iter().fold(0, with_digit), false))
}

fn with_digit(number: u16, digit: &u8) -> u16 {
    number
        .saturating_mul(10)
        .saturating_add(digit.wrapping_sub(b'0').into())
}
