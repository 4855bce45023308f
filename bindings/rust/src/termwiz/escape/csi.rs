// SPDX-License-Identifier: MIT
//! Control sequences as values.
//!
//! A value is read by this crate, from the entries that the library gives, and not by a proved
//! call. Its names are those of `termwiz`.
mod cursor;
mod device;
mod edit;
mod graphics;
mod keyboard;
mod mode;
mod mode_codes;
mod mouse;
mod path;
mod sequence;
mod sgr;
mod values;
mod window;

pub use cursor::{Cursor, CursorStyle, CursorTabulationControl, TabulationClear};
pub use device::{
    Device, DeviceAttribute, DeviceAttributeCodes, DeviceAttributeFlags, DeviceAttributes,
};
pub use edit::{Edit, EraseInDisplay, EraseInLine};
pub use graphics::{XtSmGraphics, XtSmGraphicsAction, XtSmGraphicsItem, XtSmGraphicsStatus};
pub use keyboard::{Keyboard, KittyKeyboardFlags, KittyKeyboardMode};
pub use mode::{DecPrivateMode, Mode, TerminalMode, XtermKeyModifierResource};
pub use mode_codes::{DecPrivateModeCode, TerminalModeCode};
pub use mouse::{MouseButton, MouseReport};
pub use path::CharacterPath;
pub use sequence::CsiParam;
pub use sgr::{Font, Sgr};
pub use values::Values;
pub use window::Window;

pub use super::OneBased;
pub use crate::termwiz::cell::{Blink, Intensity, Underline, VerticalAlign};
pub use crate::termwiz::color::{AnsiColor, ColorSpec};
pub use crate::termwiz::input::Modifiers;

use alloc::boxed::Box;
use alloc::vec::Vec;
use core::fmt::{self, Write};

/// A request of a control sequence. One sequence may ask for several values, as one of renditions
/// does.
#[derive(Clone, Debug, PartialEq)]
#[cfg_attr(feature = "serde", derive(serde::Serialize, serde::Deserialize))]
pub enum CSI {
    /// It is a rendition.
    Sgr(Sgr),
    /// It is of the cursor.
    Cursor(Cursor),
    /// It edits the screen.
    Edit(Edit),
    /// It is of a mode.
    Mode(Mode),
    /// It is of the terminal itself.
    Device(Box<Device>),
    /// It is a report of the mouse.
    Mouse(MouseReport),
    /// It is of the window.
    Window(Box<Window>),
    /// It is of the keyboard.
    Keyboard(Keyboard),
    /// SCP chooses the direction of text, and what it does to the characters that are there.
    SelectCharacterPath(CharacterPath, i64),
    /// It is none of these.
    Unspecified(Box<Unspecified>),
}

/// A control sequence as it came.
#[derive(Clone, Debug, PartialEq, Eq)]
#[cfg_attr(feature = "serde", derive(serde::Serialize, serde::Deserialize))]
pub struct Unspecified {
    /// Its entries: private prefix, parameters, separators, intermediates.
    pub params: Vec<CsiParam>,
    /// Whether more came than are kept.
    pub parameters_truncated: bool,
    /// The final byte.
    pub control: char,
}

impl CSI {
    /// The values of a control sequence with these entries and this final byte.
    ///
    /// ```
    /// use escape_stream::termwiz::escape::csi::{CSI, Cursor, CsiParam};
    ///
    /// let mut values = CSI::parse(&[CsiParam::Integer(3)], false, 'A');
    /// assert_eq!(values.next(), Some(CSI::Cursor(Cursor::Up(3))));
    /// assert_eq!(values.next(), None);
    /// ```
    pub fn parse(params: &[CsiParam], parameters_truncated: bool, control: char) -> Values<'_> {
        Values::of(params, parameters_truncated, control)
    }
}

impl fmt::Display for Unspecified {
    fn fmt(&self, f: &mut fmt::Formatter<'_>) -> fmt::Result {
        for param in &self.params {
            param.fmt(f)?;
        }
        f.write_char(self.control)
    }
}

impl fmt::Display for CSI {
    fn fmt(&self, f: &mut fmt::Formatter<'_>) -> fmt::Result {
        f.write_str("\x1b[")?;
        match self {
            CSI::Sgr(it) => it.fmt(f),
            CSI::Cursor(it) => it.fmt(f),
            CSI::Edit(it) => it.fmt(f),
            CSI::Mode(it) => it.fmt(f),
            CSI::Device(it) => it.fmt(f),
            CSI::Mouse(it) => it.fmt(f),
            CSI::Window(it) => it.fmt(f),
            CSI::Keyboard(it) => it.fmt(f),
            CSI::SelectCharacterPath(path, 0) => write!(f, "{} k", path.number()),
            CSI::SelectCharacterPath(path, effect) => write!(f, "{};{effect} k", path.number()),
            CSI::Unspecified(it) => it.fmt(f),
        }
    }
}
