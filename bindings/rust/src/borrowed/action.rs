// SPDX-License-Identifier: MIT
//! Actions.
use super::{DeviceControlMode, KittyImage, List, OperatingSystemCommand};
use crate::action::{self, ControlCode, Esc};
use crate::dcs::Sixel;
use crate::{ControlFunction, Entry};
use alloc::boxed::Box;
use alloc::string::String;

/// The request of a part of a stream, borrowed. The owned one is
/// [`action::Action`](crate::action::Action).
#[derive(Clone, Copy, Debug, PartialEq)]
#[non_exhaustive]
pub enum Action<'a> {
    /// Prints a character that comes by itself: two chunks share it, or it is U+FFFD for bytes that
    /// are no UTF-8.
    Print(char),
    /// Prints characters, one or more.
    PrintString(&'a str),
    /// A control code.
    Control(ControlCode),
    /// A device control string that is none of those below.
    DeviceControl(DeviceControlMode<'a>),
    /// An operating system command.
    OperatingSystemCommand(&'a OperatingSystemCommand<'a>),
    /// A control sequence.
    CSI(CSI<'a>),
    /// An escape sequence.
    Esc(Esc),
    /// A sixel image.
    Sixel(&'a Sixel),
    /// The names of capabilities that are asked for.
    XtGetTcap(&'a List<'a, &'a str>),
    /// A command of kitty's graphics protocol.
    KittyImage(&'a KittyImage<'a>),
}

impl Action<'_> {
    /// The owned action, which is the one that [`Parser::parse`](crate::action::Parser::parse)
    /// gives: a single character as `Print`.
    #[inline(always)]
    #[must_use]
    pub fn into_owned(self) -> action::Action {
        match self {
            Action::Print(c) => action::Action::Print(c),
            Action::PrintString(text) => match single(text) {
                Some(c) => action::Action::Print(c),
                None => action::Action::PrintString(text.into()),
            },
            Action::Control(code) => action::Action::Control(code),
            Action::CSI(sequence) => action::Action::CSI(sequence.into_owned()),
            Action::Esc(escape) => action::Action::Esc(escape),
            Action::DeviceControl(mode) => action::Action::DeviceControl(mode.into_owned()),
            Action::OperatingSystemCommand(command) => {
                action::Action::OperatingSystemCommand(Box::new(command.into_owned()))
            }
            Action::Sixel(sixel) => action::Action::Sixel(Box::new(sixel.clone())),
            Action::XtGetTcap(names) => {
                action::Action::XtGetTcap(names.iter().map(String::from).collect())
            }
            Action::KittyImage(image) => action::Action::KittyImage(Box::new(image.into_owned())),
        }
    }
}

/// A control sequence: its entries and its final byte. [`function`](CSI::function) names it.
#[derive(Clone, Copy, Debug, PartialEq, Eq)]
pub struct CSI<'a> {
    /// Numbers and bytes in order: private prefix, parameters, separators, intermediates.
    /// [`Parameters`](crate::Parameters) reads them.
    pub params: &'a [Entry],
    /// Whether more came than are kept.
    pub parameters_truncated: bool,
    /// The final byte.
    pub control: u8,
}

impl CSI<'_> {
    /// Its function, by name.
    #[must_use]
    pub fn function(self) -> Option<ControlFunction> {
        ControlFunction::of_entries(self.params, self.control)
    }

    /// The owned sequence.
    #[inline]
    #[must_use]
    pub fn into_owned(self) -> action::CSI {
        action::CSI {
            params: self.params.into(),
            parameters_truncated: self.parameters_truncated,
            control: self.control,
        }
    }
}

/// The character of a run of one.
#[inline(always)]
pub(crate) fn single(run: &str) -> Option<char> {
    let first = *run.as_bytes().first()?;
    if first.is_ascii() {
        (run.len() == 1).then(|| first.into())
    } else if run.len() <= 4 {
        single_wide(run)
    } else {
        None
    }
}

#[inline(never)]
fn single_wide(run: &str) -> Option<char> {
    let mut characters = run.chars();
    let first = characters.next();
    first.filter(|_| characters.as_str().is_empty())
}
