// SPDX-License-Identifier: MIT
//! Control sequences of modes.
use super::mode_codes::{DecPrivateModeCode, TerminalModeCode};
use super::sequence::{CsiParam, Sequence};
use core::fmt;

/// A request about a mode.
#[derive(Clone, Copy, Debug, PartialEq, Eq)]
#[cfg_attr(feature = "serde", derive(serde::Serialize, serde::Deserialize))]
pub enum Mode {
    /// DECSET sets it.
    SetDecPrivateMode(DecPrivateMode),
    /// DECRST resets it.
    ResetDecPrivateMode(DecPrivateMode),
    /// XTSAVE keeps it.
    SaveDecPrivateMode(DecPrivateMode),
    /// XTRESTORE takes it back.
    RestoreDecPrivateMode(DecPrivateMode),
    /// DECRQM asks for it.
    QueryDecPrivateMode(DecPrivateMode),
    /// SM sets it.
    SetMode(TerminalMode),
    /// RM resets it.
    ResetMode(TerminalMode),
    /// DECRQM asks for it.
    QueryMode(TerminalMode),
    /// XTMODKEYS says how modifiers change what keys send.
    XtermKeyMode {
        /// The keys.
        resource: XtermKeyModifierResource,
        /// Their number. Without a number it is as the terminal has it at first.
        value: Option<i64>,
    },
}

/// A private mode.
#[derive(Clone, Copy, Debug, PartialEq, Eq, Hash)]
#[cfg_attr(feature = "serde", derive(serde::Serialize, serde::Deserialize))]
pub enum DecPrivateMode {
    /// It has a name.
    Code(DecPrivateModeCode),
    /// It has none here.
    Unspecified(u16),
}

/// A mode of ECMA-48.
#[derive(Clone, Copy, Debug, PartialEq, Eq, Hash)]
#[cfg_attr(feature = "serde", derive(serde::Serialize, serde::Deserialize))]
pub enum TerminalMode {
    /// It has a name.
    Code(TerminalModeCode),
    /// It has none here.
    Unspecified(u16),
}

/// The keys of which XTMODKEYS speaks.
#[derive(Clone, Copy, Debug, PartialEq, Eq, Hash)]
#[cfg_attr(feature = "serde", derive(serde::Serialize, serde::Deserialize))]
pub enum XtermKeyModifierResource {
    /// They are those of the keypad and others.
    Keyboard,
    /// They are those of the cursor.
    CursorKeys,
    /// They are those of functions.
    FunctionKeys,
    /// They are all others.
    OtherKeys,
}

impl XtermKeyModifierResource {
    /// The keys of this number.
    #[must_use]
    pub fn parse(value: i64) -> Option<XtermKeyModifierResource> {
        Some(match value {
            0 => XtermKeyModifierResource::Keyboard,
            1 => XtermKeyModifierResource::CursorKeys,
            2 => XtermKeyModifierResource::FunctionKeys,
            4 => XtermKeyModifierResource::OtherKeys,
            _ => return None,
        })
    }

    fn number(self) -> i64 {
        match self {
            XtermKeyModifierResource::Keyboard => 0,
            XtermKeyModifierResource::CursorKeys => 1,
            XtermKeyModifierResource::FunctionKeys => 2,
            XtermKeyModifierResource::OtherKeys => 4,
        }
    }
}

impl DecPrivateMode {
    fn of(number: i64) -> Option<DecPrivateMode> {
        Some(match DecPrivateModeCode::of(number) {
            Some(code) => DecPrivateMode::Code(code),
            None => DecPrivateMode::Unspecified(u16::try_from(number).ok()?),
        })
    }

    fn number(self) -> u32 {
        match self {
            DecPrivateMode::Code(code) => code.number(),
            DecPrivateMode::Unspecified(number) => number.into(),
        }
    }
}

impl TerminalMode {
    fn of(number: i64) -> Option<TerminalMode> {
        Some(match TerminalModeCode::of(number) {
            Some(code) => TerminalMode::Code(code),
            None => TerminalMode::Unspecified(u16::try_from(number).ok()?),
        })
    }

    fn number(self) -> u32 {
        match self {
            TerminalMode::Code(code) => code.number(),
            TerminalMode::Unspecified(number) => number.into(),
        }
    }
}

/// The effect of a sequence of modes on each.
#[derive(Clone, Copy)]
pub enum Change {
    Private(fn(DecPrivateMode) -> Mode),
    Plain(fn(TerminalMode) -> Mode),
}

impl Change {
    /// The effect of this sequence, if it is one of modes.
    pub fn of(sequence: &Sequence<'_>) -> Option<Change> {
        Some(
            match (sequence.prefix, sequence.intermediate, sequence.last) {
                (Some(b'?'), None, 'h') => Change::Private(Mode::SetDecPrivateMode),
                (Some(b'?'), None, 'l') => Change::Private(Mode::ResetDecPrivateMode),
                (Some(b'?'), None, 's') => Change::Private(Mode::SaveDecPrivateMode),
                (Some(b'?'), None, 'r') => Change::Private(Mode::RestoreDecPrivateMode),
                (None, None, 'h') => Change::Plain(Mode::SetMode),
                (None, None, 'l') => Change::Plain(Mode::ResetMode),
                _ => return None,
            },
        )
    }

    /// The mode of a parameter, with this effect.
    pub fn mode(self, param: &[CsiParam]) -> Option<Mode> {
        let [CsiParam::Integer(number)] = *param else {
            return None;
        };
        match self {
            Change::Private(change) => DecPrivateMode::of(number).map(change),
            Change::Plain(change) => TerminalMode::of(number).map(change),
        }
    }

    /// The private prefix of the sequence.
    pub fn prefix(self) -> Option<CsiParam> {
        match self {
            Change::Private(_) => Some(CsiParam::P(b'?')),
            Change::Plain(_) => None,
        }
    }
}

impl Mode {
    /// The one of a sequence of one mode.
    pub(super) fn of(sequence: &Sequence<'_>) -> Option<Mode> {
        match (sequence.prefix, sequence.intermediate, sequence.last) {
            (prefix, Some(b'$'), 'p') => {
                let [number] = sequence.numbers()?;
                match prefix {
                    None => TerminalMode::of(number?).map(Mode::QueryMode),
                    Some(b'?') => DecPrivateMode::of(number?).map(Mode::QueryDecPrivateMode),
                    Some(_) => None,
                }
            }
            (Some(b'>'), None, 'm') => {
                let [resource, value] = sequence.numbers()?;
                Some(Mode::XtermKeyMode {
                    resource: XtermKeyModifierResource::parse(resource?)?,
                    value,
                })
            }
            _ => None,
        }
    }
}

// The text after `ESC [`.
impl fmt::Display for Mode {
    fn fmt(&self, f: &mut fmt::Formatter<'_>) -> fmt::Result {
        match self {
            Mode::SetDecPrivateMode(mode) => write!(f, "?{}h", mode.number()),
            Mode::ResetDecPrivateMode(mode) => write!(f, "?{}l", mode.number()),
            Mode::SaveDecPrivateMode(mode) => write!(f, "?{}s", mode.number()),
            Mode::RestoreDecPrivateMode(mode) => write!(f, "?{}r", mode.number()),
            Mode::QueryDecPrivateMode(mode) => write!(f, "?{}$p", mode.number()),
            Mode::SetMode(mode) => write!(f, "{}h", mode.number()),
            Mode::ResetMode(mode) => write!(f, "{}l", mode.number()),
            Mode::QueryMode(mode) => write!(f, "{}$p", mode.number()),
            Mode::XtermKeyMode { resource, value } => match value {
                Some(value) => write!(f, ">{};{value}m", resource.number()),
                None => write!(f, ">{};m", resource.number()),
            },
        }
    }
}
