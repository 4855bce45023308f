// SPDX-License-Identifier: MIT
//! Bytes of a stream that comes byte by byte.
use super::{ESCAPE, first_character};

// Most sequences, titles and addresses are shorter.
const ROOM: usize = 256;

/// The last bytes that came one by one and that the parser was not given yet. They make no call
/// before the next byte, and the calls of a stream are the same however it is cut, so the parser
/// takes them together with the byte that ends them.
#[derive(Clone, Debug)]
pub struct Held {
    bytes: [u8; ROOM],
    count: usize,
    kind: Kind,
}

// The kind of the bytes.
#[derive(Clone, Copy, Debug, PartialEq)]
enum Kind {
    // There are none, and the parser is here.
    Nothing(Place),
    // ESC.
    Escape,
    // A control sequence up to its parameters.
    Parameters,
    // A command, whose text is handed out at its end.
    Text,
    // A string that makes no call: its text is dropped, since none of it matters.
    Passed,
    // A character of which so many bytes are missing.
    Character(u8),
}

/// Where the parser is.
#[derive(Clone, Copy, Debug, PartialEq)]
pub enum Place {
    /// No sequence, no string and no character is unfinished.
    Ground,
    /// The data of a device control string are unfinished.
    Data,
    /// The text of a command is.
    Text,
    /// A string is that makes no call here.
    Passed,
    /// Something else is.
    Inside,
}

/// The effect of a byte that comes by itself.
pub enum Single {
    /// It is this character.
    Print(char),
    /// It is a control.
    Execute,
    /// It is a byte of data.
    Put,
    /// It is held.
    Held,
    /// The parser has to take it with those that are held.
    Due,
}

impl Held {
    /// No bytes.
    pub fn new() -> Held {
        Held {
            bytes: [0; ROOM],
            count: 0,
            kind: Kind::Nothing(Place::Ground),
        }
    }

    /// Takes a byte.
    #[inline]
    pub fn take(&mut self, byte: u8) -> Single {
        match (self.kind, byte) {
            (Kind::Nothing(Place::Ground), 0x20..=0x7e) => Single::Print(byte.into()),
            (Kind::Nothing(Place::Ground), 0x00..=0x1a | 0x1c..=0x1f) => Single::Execute,
            (Kind::Nothing(Place::Data), 0x20..=0x7e) => Single::Put,
            (Kind::Passed, 0x20..=0x7e) => Single::Held,
            (Kind::Nothing(Place::Ground), _) => {
                self.kind = begun(byte);
                self.keep(byte, !self.is_open())
            }
            _ => {
                let is_due = !self.goes_on(byte);
                self.keep(byte, is_due)
            }
        }
    }

    /// Takes the beginning of a sequence or of a string in the place of all that is held, where
    /// nothing is unfinished.
    #[inline]
    pub fn begin(&mut self, bytes: &[u8]) {
        let (kind, kept) = match bytes.get(1) {
            None => (Kind::Escape, bytes),
            Some(b'[') => (Kind::Parameters, bytes),
            Some(b']') => (Kind::Text, bytes),
            Some(_) => (Kind::Passed, &bytes[..2]),
        };
        for (place, byte) in self.bytes.iter_mut().zip(kept) {
            *place = *byte;
        }
        self.count = kept.len().min(ROOM);
        self.kind = kind;
    }

    /// Takes bytes after some that are held, up to the one that ends what they are, and says how
    /// many.
    #[inline]
    pub fn take_run(&mut self, bytes: &[u8]) -> (usize, Single) {
        let run = match self.kind {
            Kind::Parameters => count_while(bytes, |byte| matches!(byte, 0x30..=0x3f)),
            Kind::Text => count_while(bytes, is_text),
            Kind::Passed => return self.pass(bytes),
            _ => 0,
        };
        let room = self.bytes.get_mut(self.count..).unwrap_or_default();
        let kept = run.min(room.len());
        // (a call to copy no byte costs as much as the rest of this)
        if kept > 0 {
            room[..kept].copy_from_slice(&bytes[..kept]);
        }
        self.count += kept;
        match bytes.get(kept) {
            _ if self.count == ROOM => (kept, Single::Due),
            None => (kept, Single::Held),
            Some(byte) => {
                let is_due = !self.goes_on(*byte);
                (kept + 1, self.keep(*byte, is_due))
            }
        }
    }

    // Drops bytes of a string that makes no call, up to the one that ends it.
    #[inline]
    fn pass(&mut self, bytes: &[u8]) -> (usize, Single) {
        let run = count_while(bytes, is_text);
        match bytes.get(run) {
            None => (run, Single::Held),
            Some(byte) => (run + 1, self.keep(*byte, true)),
        }
    }

    // Whether this byte makes no call after those that are held.
    #[inline]
    fn goes_on(&mut self, byte: u8) -> bool {
        match self.kind {
            Kind::Nothing(_) => false,
            Kind::Escape => {
                self.kind = match byte {
                    b'[' => Kind::Parameters,
                    b']' => Kind::Text,
                    b'X' | b'^' | b'_' => Kind::Passed,
                    _ => return false,
                };
                true
            }
            Kind::Parameters => matches!(byte, 0x30..=0x3f),
            Kind::Text | Kind::Passed => is_text(byte),
            Kind::Character(left) => {
                self.kind = Kind::Character(left.saturating_sub(1));
                left > 1 && matches!(byte, 0x80..=0xbf)
            }
        }
    }

    // Keeps a byte. There is room: bytes that fill it are due.
    #[inline]
    fn keep(&mut self, byte: u8, is_due: bool) -> Single {
        if let Some(place) = self.bytes.get_mut(self.count) {
            *place = byte;
            self.count += 1;
        }
        if !is_due && self.count < ROOM {
            return Single::Held;
        }
        self.character().map_or(Single::Due, Single::Print)
    }

    // The character that the bytes are, if they are one past the controls of C1. Then none is held.
    // It stands apart, so that what takes sequences stays small.
    #[inline(never)]
    fn character(&mut self) -> Option<char> {
        if self.kind != Kind::Character(0) {
            return None;
        }
        let c = first_character(self.bytes())?;
        self.clear(Place::Ground);
        Some(c)
    }

    /// Whether there are some.
    #[inline]
    pub fn is_some(&self) -> bool {
        self.count > 0
    }

    /// Whether there are some, or the next ones may be held beside a text that the parser has.
    #[inline]
    pub fn is_open(&self) -> bool {
        !matches!(self.kind, Kind::Nothing(_))
    }

    /// Where the next byte comes, if none is held.
    #[inline]
    pub fn place(&self) -> Place {
        match self.kind {
            Kind::Nothing(place) => place,
            _ => Place::Inside,
        }
    }

    /// The bytes.
    #[inline]
    pub fn bytes(&self) -> &[u8] {
        self.bytes.get(..self.count).unwrap_or_default()
    }

    /// Holds none any more. `place` says where the parser is.
    #[inline]
    pub fn clear(&mut self, place: Place) {
        self.count = 0;
        self.kind = match place {
            Place::Text => Kind::Text,
            Place::Passed => Kind::Passed,
            Place::Ground | Place::Data | Place::Inside => Kind::Nothing(place),
        };
    }
}

// Whether a byte is one of the text of a string, in any string.
#[inline]
fn is_text(byte: u8) -> bool {
    matches!(byte, 0x20..=0x7e)
}

/// The bytes of a short chunk before its tail, or all, where the tail is the chunk.
#[inline]
pub fn before_tail(bytes: &[u8]) -> &[u8] {
    match bytes.len() - tail(bytes) {
        0 => bytes,
        before => &bytes[..before],
    }
}

/// How many bytes at the end of a chunk are the beginning of a sequence or of a string, which makes
/// no call if nothing is unfinished before it.
#[inline]
pub fn tail(bytes: &[u8]) -> usize {
    let Some(start) = bytes.iter().rposition(|byte| *byte == ESCAPE) else {
        return 0;
    };
    let goes_on = match bytes[start + 1..] {
        [] => true,
        [b'[', ref rest @ ..] => rest.iter().all(|byte| matches!(byte, 0x30..=0x3f)),
        [b']' | b'X' | b'^' | b'_', ref rest @ ..] => rest.iter().all(|byte| is_text(*byte)),
        _ => false,
    };
    if goes_on { bytes.len() - start } else { 0 }
}

#[inline]
fn count_while(bytes: &[u8], is_so: impl Fn(u8) -> bool) -> usize {
    bytes.iter().take_while(|byte| is_so(**byte)).count()
}

// The beginning that a byte is, if it is neither a character by itself nor a control of C0. After
// some first bytes of a character not every second one may follow: the parser has to see these at
// once.
#[inline]
fn begun(byte: u8) -> Kind {
    match byte {
        0x1b => Kind::Escape,
        0xc2..=0xdf | 0xe0 | 0xed | 0xf0 | 0xf4 => Kind::Character(1),
        0xe1..=0xec | 0xee | 0xef => Kind::Character(2),
        0xf1..=0xf3 => Kind::Character(3),
        _ => Kind::Nothing(Place::Inside),
    }
}
