// SPDX-License-Identifier: MIT
//! Sequences and commands of plain bytes that are all there. To have the parser read so few bytes
//! costs more than they do.
use super::{BELL, ESCAPE, Params, Perform, call_osc};

/// A sequence or a command that is all there.
#[derive(Clone, Copy)]
pub enum Plain<'a> {
    /// An escape sequence of this byte.
    Escape(u8),
    /// A control sequence of a prefix, numbers with separators and a final byte: these.
    Sequence(&'a [u8]),
    /// The text of a command, and whether the bell ended it. Else an ESC did.
    Command(&'a [u8], bool),
}

/// What bytes begin with where nothing is unfinished.
pub enum Start<'a> {
    /// This is all there, and has so many bytes.
    Whole(Plain<'a>, usize),
    /// All bytes are the beginning of a sequence or a command, and make no call yet.
    Begun,
    /// Something else.
    Other,
}

impl<'a> Start<'a> {
    /// What these bytes begin with. A command of more than `limit` bytes is something else.
    #[inline]
    pub fn of(bytes: &'a [u8], limit: usize) -> Start<'a> {
        match *bytes {
            [ESCAPE, b'[', ref rest @ ..] => sequence(rest),
            [ESCAPE, b']', ref rest @ ..] => command(rest, limit),
            // These open a string.
            [ESCAPE, b'P' | b'X' | b'^' | b'_', ..] => Start::Other,
            [ESCAPE, byte @ 0x30..=0x7e, ..] => Start::Whole(Plain::Escape(byte), 2),
            [ESCAPE] => Start::Begun,
            _ => Start::Other,
        }
    }
}

impl<'a> Plain<'a> {
    /// Whether its last byte begins another sequence.
    #[inline]
    pub fn ends_in_escape(self) -> bool {
        matches!(self, Plain::Command(_, false))
    }

    /// Makes its call.
    #[inline]
    pub fn call<P: Perform>(self, params: &mut Params, performer: &mut P) {
        match self {
            Plain::Escape(byte) => performer.esc_dispatch(&[], false, byte),
            Plain::Sequence(bytes) => {
                call_sequence(params, performer, bytes);
            }
            Plain::Command(text, bell_terminated) => call_osc(performer, text, bell_terminated),
        }
    }
}

#[inline]
fn sequence(inner: &[u8]) -> Start<'_> {
    let prefix = usize::from(matches!(inner, [0x3c..=0x3f, ..]));
    let numbers = inner[prefix..].iter();
    let last = prefix + numbers.take_while(|it| matches!(it, 0x30..=0x3b)).count();
    match inner.get(last) {
        Some(0x40..=0x7e) => Start::Whole(Plain::Sequence(&inner[..=last]), last + 3),
        Some(_) => Start::Other,
        None => Start::Begun,
    }
}

#[inline]
fn command(inner: &[u8], limit: usize) -> Start<'_> {
    let is_text = |byte: &&u8| matches!(**byte, 0x20..=0x7e);
    let length = inner.iter().take_while(is_text).count();
    match inner.get(length) {
        Some(&end @ (BELL | ESCAPE)) if length <= limit => {
            Start::Whole(Plain::Command(&inner[..length], end == BELL), length + 3)
        }
        Some(_) => Start::Other,
        None => Start::Begun,
    }
}

/// Makes the call of a control sequence that has these bytes after its `ESC [`, if they are a
/// prefix, numbers with separators and a final byte, and says whether they are.
#[inline]
pub fn call_sequence<P: Perform>(params: &mut Params, performer: &mut P, inner: &[u8]) -> bool {
    let [rest @ .., last @ 0x40..=0x7e] = inner else {
        return false;
    };
    let (prefix, numbers) = rest.split_at(usize::from(matches!(rest, [0x3c..=0x3f, ..])));
    let (mut number, mut ignore) = (0, false);
    params.clear();
    for byte in numbers {
        match byte {
            b'0'..=b'9' => number = with_digit(number, *byte),
            b';' | b':' => {
                ignore |= !params.push(number as u16, *byte == b':');
                number = 0;
            }
            _ => return false,
        }
    }
    ignore |= !params.push(number as u16, false);
    performer.csi_dispatch(params, prefix, ignore, char::from(*last));
    true
}

// A number with a digit after it, or the greatest one.
#[inline]
fn with_digit(number: u32, digit: u8) -> u32 {
    (number * 10 + u32::from(digit & 0xf)).min(u16::MAX.into())
}
