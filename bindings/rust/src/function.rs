// SPDX-License-Identifier: MIT
//! Control functions by name.
use crate::Entry;

/// The effect of a control function, and whether a terminal answers it.
#[derive(Clone, Copy, Debug, PartialEq, Eq, Hash)]
#[cfg_attr(feature = "serde", derive(serde::Serialize, serde::Deserialize))]
pub enum Effect {
    /// It changes the screen alone: its text, the cursor, margins, tab stops and renditions.
    Screen,
    /// A terminal answers it, with some of its parameters or with all.
    Answered,
    /// A terminal sends it, as an answer or because of a key, the mouse or the window.
    Report,
    /// Anything else: the input of keys and mouse, the reports of the terminal, modes, character
    /// sets and shifts between them, the bell, printers, memory, and functions that no terminal is
    /// known to perform.
    Other,
}

// A row of a table, without its key.
pub(crate) struct Row {
    pub(crate) name: &'static str,
    pub(crate) effect: Effect,
    pub(crate) words: &'static str,
}

macro_rules! functions {
    (
        #[doc = $about:literal]
        $functions:ident;
        $($f:ident, $key:literal, $name:literal, $effect:ident, $words:literal, $doc:literal;)+
    ) => {
        #[doc = $about]
        /// Its table, with parameters and standards, is docs/FUNCTIONS.md.
        #[allow(non_camel_case_types, clippy::upper_case_acronyms)]
        #[derive(Clone, Copy, Debug, PartialEq, Eq, Hash, PartialOrd, Ord)]
        #[cfg_attr(feature = "serde", derive(serde::Serialize, serde::Deserialize))]
        #[non_exhaustive]
        pub enum $functions {
            $(#[doc = $doc] $f,)+
        }

        impl $functions {
            /// Each function, in the order of the last bytes of their sequences.
            pub const ALL: &[$functions] = &[$($functions::$f),+];

            // The function that has this key: the bytes of its sequence but its parameters, as
            // digits to the base 256 after a 1, or after a 2 if another function has the same
            // bytes.
            pub(crate) fn of_key(key: u32) -> Option<$functions> {
                match key {
                    $($key => Some($functions::$f),)+
                    _ => None,
                }
            }

            fn row(self) -> &'static $crate::function::Row {
                static ROWS: &[$crate::function::Row] = &[$($crate::function::Row {
                    name: $name,
                    effect: $crate::Effect::$effect,
                    words: $words,
                }),+];
                &ROWS[self as usize]
            }

            /// Its name, as the standards abbreviate it.
            pub fn name(self) -> &'static str {
                self.row().name
            }

            /// Its effect, in words.
            pub fn words(self) -> &'static str {
                self.row().words
            }

            /// The kind of its effect, and whether a terminal answers it.
            pub fn effect(self) -> $crate::Effect {
                self.row().effect
            }
        }
    };
}

pub(crate) use functions;

use crate::function_rows::{C0, ControlFunction, EscapeFunction};

impl ControlFunction {
    /// The function of a control sequence with these entries, all that it has, and this final byte,
    /// if it has a name.
    ///
    /// ```
    /// use escape_stream::{ControlFunction, Event, Parser};
    ///
    /// let mut lines = 0;
    /// Parser::new().advance(b"\x1b[3A\x1b[B\x1b[2J", |event| {
    ///     if let Event::Csi { entries, byte, .. } = event {
    ///         let count = entries.first().and_then(|it| it.number()).unwrap_or(1);
    ///         match ControlFunction::of_entries(entries, byte) {
    ///             Some(ControlFunction::CUU) => lines -= count,
    ///             Some(ControlFunction::CUD) => lines += count,
    ///             _ => {}
    ///         }
    ///     }
    /// })?;
    /// assert_eq!(lines, -2);
    /// # Ok::<(), escape_stream::Error>(())
    /// ```
    pub fn of_entries(entries: &[Entry], last: u8) -> Option<ControlFunction> {
        let marks = entries.iter().filter_map(|it| it.byte());
        let marks = marks.filter(|it| !matches!(it, b';' | b':'));
        of_marks(marks, entries.len(), last)
    }

    /// The function of a control sequence with this private prefix, one of `<` `=` `>` `?`, these
    /// intermediates, so many parameters and separators between them, and this final byte, if it
    /// has a name. The count decides between two functions that differ in nothing else: it matters
    /// for the final bytes `T`, `s` and `u` alone.
    pub fn of(
        private_prefix: Option<u8>,
        intermediates: &[u8],
        count: usize,
        last: u8,
    ) -> Option<ControlFunction> {
        let marks = private_prefix.iter().chain(intermediates).copied();
        of_marks(marks, count, last)
    }
}

// The function of a control sequence with these marks: its private prefix and its intermediates.
fn of_marks(
    mut marks: impl Iterator<Item = u8>,
    count: usize,
    last: u8,
) -> Option<ControlFunction> {
    let packed = marks.try_fold(1, pack)?;
    let is_long = packed == 1
        && match last {
            b'T' => count >= 2,
            b's' | b'u' => count >= 1,
            _ => false,
        };
    let lead = if is_long { 2 } else { packed };
    ControlFunction::of_key(lead * 0x100 + u32::from(last))
}

// A mark more; none if there are more than two, which no function has.
fn pack(packed: u32, mark: u8) -> Option<u32> {
    (packed < 0x1_0000).then_some(packed * 0x100 + u32::from(mark))
}

impl EscapeFunction {
    /// The function of an escape sequence with this intermediate, if there is one, and this final
    /// byte, if it has a name. The intermediate of one that designates a character set decides
    /// alone: the final byte says which set.
    pub fn of(intermediate: Option<u8>, last: u8) -> Option<EscapeFunction> {
        let key = match intermediate {
            None => 0x100 + u32::from(last),
            Some(byte @ (b'!' | b'"' | b'$' | b'&' | b'('..=b'+' | b'-'..=b'/')) => {
                0x100 + u32::from(byte)
            }
            Some(byte) => (0x100 + u32::from(byte)) * 0x100 + u32::from(last),
        };
        EscapeFunction::of_key(key)
    }

    /// The function of an escape sequence with all of these intermediates and this final byte, if
    /// it has a name. If there are two intermediates, both count (ECMA-35, 14.3.2 and 15.4.2).
    ///
    /// ```
    /// use escape_stream::EscapeFunction;
    ///
    /// // KS X 1001 as G1, and the national set of Portugal as G0.
    /// assert_eq!(EscapeFunction::of_intermediates(b"$)", b'C'), Some(EscapeFunction::G1DM4));
    /// assert_eq!(EscapeFunction::of_intermediates(b"(%", b'6'), Some(EscapeFunction::GZD4));
    /// ```
    pub fn of_intermediates(intermediates: &[u8], last: u8) -> Option<EscapeFunction> {
        match *intermediates {
            [] => EscapeFunction::of(None, last),
            [byte] => EscapeFunction::of(Some(byte), last),
            [first @ (b'$' | b'%'), second, ..] => {
                EscapeFunction::of_key((0x100 + u32::from(first)) * 0x100 + u32::from(second))
            }
            [first @ (b'!' | b'"' | b'&' | b'('..=b'+' | b'-'..=b'/'), ..] => {
                EscapeFunction::of(Some(first), last)
            }
            _ => None,
        }
    }

    /// The function of a C1 control, 80 to 9F (hexadecimal): that of ESC and the byte 40 less
    /// (ECMA-48, 5.3). `None` for another code.
    pub fn of_c1(code: u8) -> Option<EscapeFunction> {
        match code {
            0x80..=0x9f => EscapeFunction::of(None, code - 0x40),
            _ => None,
        }
    }
}

impl C0 {
    /// The control of this code: 00 to 1F (hexadecimal), or 7F, which is DEL. `None` for another
    /// code.
    ///
    /// ```
    /// use escape_stream::C0;
    ///
    /// assert_eq!(C0::of(b'\n'), Some(C0::LF));
    /// assert_eq!(C0::LF.words(), "line feed");
    /// assert_eq!(C0::of(b'n'), None);
    /// ```
    pub fn of(code: u8) -> Option<C0> {
        C0::of_key(0x100 + u32::from(code))
    }
}
