// SPDX-License-Identifier: MIT
//! Control sequences of kitty's keyboard protocol.
use super::sequence::{Sequence, write_count};
use crate::termwiz::choices::choices;
use crate::termwiz::flags::flags;
use core::fmt;

/// A request about the reports of keys, or a report of them.
#[derive(Clone, Copy, Debug, PartialEq, Eq)]
#[cfg_attr(feature = "serde", derive(serde::Serialize, serde::Deserialize))]
pub enum Keyboard {
    /// These flags are set, or are no longer.
    SetKittyState {
        /// The flags.
        flags: KittyKeyboardFlags,
        /// The way in which they change those that are set.
        mode: KittyKeyboardMode,
    },
    /// The flags that are set are kept, and then these are set.
    PushKittyState {
        /// The flags.
        flags: KittyKeyboardFlags,
        /// The way in which they change those that are set.
        mode: KittyKeyboardMode,
    },
    /// So many of the flags that were kept are taken back.
    PopKittyState(u32),
    /// The flags are asked for.
    QueryKittySupport,
    /// The flags are reported.
    ReportKittyState(KittyKeyboardFlags),
}

flags! {
    /// The reports of keys.
    KittyKeyboardFlags {
        /// Nothing more is.
        NONE = 0;
        /// No key is reported as another is.
        DISAMBIGUATE_ESCAPE_CODES = 1;
        /// Repetition and release are.
        REPORT_EVENT_TYPES = 2;
        /// The characters of a key with Shift and in the usual layout are.
        REPORT_ALTERNATE_KEYS = 4;
        /// Keys of text are reported by control sequences.
        REPORT_ALL_KEYS_AS_ESCAPE_CODES = 8;
        /// The text of a key is.
        REPORT_ASSOCIATED_TEXT = 16;
    }
}

choices! {
    /// The way in which flags change those that are set.
    KittyKeyboardMode {
        /// They replace them.
        AssignAll = 1,
        /// They are set beside them.
        SetSpecified = 2,
        /// They are no longer set.
        ClearSpecified = 3,
    }
}

// The flags of a number.
fn flags_of(number: Option<i64>) -> Option<KittyKeyboardFlags> {
    let bits = u16::try_from(number.unwrap_or(0)).ok()?;
    let flags = KittyKeyboardFlags::from_bits_truncate(bits);
    (flags.bits() == bits).then_some(flags)
}

impl Keyboard {
    pub(super) fn of(sequence: &Sequence<'_>) -> Option<Keyboard> {
        if sequence.last != 'u' || sequence.intermediate.is_some() {
            return None;
        }
        match sequence.prefix? {
            b'?' if sequence.params.is_empty() => Some(Keyboard::QueryKittySupport),
            b'?' => {
                let [flags] = sequence.numbers()?;
                flags_of(flags).map(Keyboard::ReportKittyState)
            }
            b'<' => sequence.count().map(Keyboard::PopKittyState),
            prefix => {
                let [flags, mode] = sequence.numbers()?;
                let flags = flags_of(flags)?;
                let mode = KittyKeyboardMode::of(mode.unwrap_or(1))?;
                Some(match prefix {
                    b'=' => Keyboard::SetKittyState { flags, mode },
                    _ => Keyboard::PushKittyState { flags, mode },
                })
            }
        }
    }
}

// The text after `ESC [`.
impl fmt::Display for Keyboard {
    fn fmt(&self, f: &mut fmt::Formatter<'_>) -> fmt::Result {
        match *self {
            Keyboard::SetKittyState { flags, mode } => {
                write!(f, "={};{}u", flags.bits(), mode.number())
            }
            Keyboard::PushKittyState { flags, mode } => {
                write!(f, ">{};{}u", flags.bits(), mode.number())
            }
            Keyboard::PopKittyState(count) => {
                f.write_str("<")?;
                write_count(count, f)?;
                f.write_str("u")
            }
            Keyboard::QueryKittySupport => f.write_str("?u"),
            Keyboard::ReportKittyState(flags) => write!(f, "?{}u", flags.bits()),
        }
    }
}
