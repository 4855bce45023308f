// SPDX-License-Identifier: MIT
//! Control strings by name.
use crate::string_rows::ROWS;
use crate::{dcs_numbers, osc_number};
use core::fmt;

/// A control string that has a name, as `OSC 52` or `DECRQSS`: a row of the tables of strings in
/// docs/FUNCTIONS.md.
///
/// ```
/// use escape_stream::{ControlString, Event, Parser};
///
/// let mut said = Vec::new();
/// Parser::new().advance(b"\x1b]133;D;1\x07\x1b]52;c;?\x07", |event| {
///     if let Event::Osc(text) = event {
///         said.extend(ControlString::of_osc(text).map(|it| (it.name(), it.words())));
///     }
/// })?;
/// assert_eq!(said, [("OSC 133;D", "command ends"), ("OSC 52", "clipboard")]);
/// # Ok::<(), escape_stream::Error>(())
/// ```
#[derive(Clone, Copy, PartialEq, Eq, Hash, PartialOrd, Ord)]
pub struct ControlString(u16);

// The kind of a string, which its key needs.
#[derive(Clone, Copy, PartialEq, Eq)]
pub(crate) enum StringKind {
    Osc,
    Letter,
    Dcs,
    Apc,
}

// The text of a string after its key.
#[derive(Clone, Copy)]
pub(crate) enum Begin {
    Anything,
    Part(&'static str),
    Bytes(&'static str),
    Parameter(i64),
    Key(&'static str),
}

// A row of the table.
pub(crate) struct Row {
    pub(crate) kind: StringKind,
    pub(crate) key: u32,
    pub(crate) begin: Begin,
    pub(crate) name: &'static str,
    pub(crate) words: &'static str,
}

impl ControlString {
    /// Each string, in the order of the table.
    pub fn all() -> impl ExactSizeIterator<Item = ControlString> + DoubleEndedIterator {
        // The table has few rows.
        (0..ROWS.len() as u16).map(ControlString)
    }

    /// The string of an operating system command with this text: by its number, or its letter, and
    /// by what comes next where one number has several.
    pub fn of_osc(text: &[u8]) -> Option<ControlString> {
        match osc_number(text) {
            Some(number) => {
                let rest = text.iter().position(|byte| *byte == b';');
                find(
                    StringKind::Osc,
                    number,
                    None,
                    rest.map_or(b"", |at| &text[at + 1..]),
                )
            }
            None => {
                let (letter, rest) = text.split_first()?;
                find(StringKind::Letter, u32::from(*letter), None, rest)
            }
        }
    }

    /// The string of a device control string with these parameters, this private prefix and these
    /// intermediates, this final byte and these data, as [`Event::Dcs`](crate::Event::Dcs) has
    /// them. The beginning of the data is enough: a few strings are told apart by their first ten
    /// bytes, and have no name if there are no data.
    ///
    /// ```
    /// use escape_stream::ControlString;
    ///
    /// let found = ControlString::of_dcs(b"", b"$", b'q', b"m").unwrap();
    /// assert_eq!((found.name(), found.words()), ("DECRQSS", "ask for a setting"));
    /// assert_eq!(ControlString::of_dcs(b"1000", b"", b'p', b"").unwrap().name(), "tmux control");
    /// ```
    pub fn of_dcs(
        parameters: &[u8],
        intermediates: &[u8],
        byte: u8,
        data: &[u8],
    ) -> Option<ControlString> {
        if intermediates.len() > 2 {
            return None;
        }
        let marks = intermediates.iter().chain([&byte]);
        let key = marks.fold(1, |key, mark| key * 0x100 + u32::from(*mark));
        let mut numbers = dcs_numbers(parameters);
        let first = numbers.next().flatten();
        let only = first.filter(|_| numbers.next().is_none());
        find(StringKind::Dcs, key, only, data)
    }

    /// The string of an application program command with this text.
    pub fn of_apc(text: &[u8]) -> Option<ControlString> {
        let (first, rest) = text.split_first()?;
        find(StringKind::Apc, u32::from(*first), None, rest)
    }

    /// The string of this name.
    ///
    /// ```
    /// use escape_stream::ControlString;
    ///
    /// assert_eq!(ControlString::named("OSC 52").unwrap().words(), "clipboard");
    /// assert_eq!(ControlString::named("OSC 4711"), None);
    /// ```
    pub fn named(name: &str) -> Option<ControlString> {
        ControlString::all().find(|it| it.name() == name)
    }

    /// Its name, which no other has: of an operating system command `OSC` and its number, and what
    /// comes next where it is told apart by that; of any other string as its documentation has it.
    pub fn name(self) -> &'static str {
        self.row().name
    }

    /// Its effect, in words.
    pub fn words(self) -> &'static str {
        self.row().words
    }

    /// The number of an operating system command that has one.
    pub fn osc_number(self) -> Option<u32> {
        let row = self.row();
        (row.kind == StringKind::Osc).then_some(row.key)
    }

    fn row(self) -> &'static Row {
        &ROWS[usize::from(self.0)]
    }
}

impl fmt::Debug for ControlString {
    fn fmt(&self, f: &mut fmt::Formatter<'_>) -> fmt::Result {
        write!(f, "ControlString({:?})", self.name())
    }
}

// The first row that a string has.
fn find(kind: StringKind, key: u32, only: Option<i64>, text: &[u8]) -> Option<ControlString> {
    ControlString::all().find(|it| {
        let row = it.row();
        row.key == key && row.kind == kind && row.begin.fits(only, text)
    })
}

impl Begin {
    fn fits(self, only: Option<i64>, text: &[u8]) -> bool {
        match self {
            Begin::Anything => true,
            Begin::Part(part) => match text.strip_prefix(part.as_bytes()) {
                Some(rest) => matches!(rest.first(), None | Some(b';' | b'=')),
                None => false,
            },
            Begin::Bytes(start) => text.starts_with(start.as_bytes()),
            Begin::Parameter(number) => only == Some(number),
            Begin::Key(key) => {
                let keys = text.split(|byte| *byte == b';').next().unwrap_or_default();
                keys.split(|byte| *byte == b',')
                    .any(|it| it == key.as_bytes())
            }
        }
    }
}
