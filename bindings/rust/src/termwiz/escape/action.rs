// SPDX-License-Identifier: MIT
//! The request of a part of a stream.
use super::csi::CsiParam;
use super::{CSI, ControlCode, DeviceControlMode, Esc, KittyImage, OperatingSystemCommand, Sixel};
use crate::written::{self, TERMINATOR};
use crate::{Entry, Error, action};
use alloc::boxed::Box;
use alloc::string::String;
use alloc::vec::Vec;
use core::fmt;

/// The request of a part of a stream.
#[derive(Clone, Debug, PartialEq)]
#[cfg_attr(feature = "serde", derive(serde::Serialize, serde::Deserialize))]
pub enum Action {
    /// Prints a character.
    Print(char),
    /// Prints characters. [`append_to`](Action::append_to) makes it, and the parser does not.
    PrintString(String),
    /// A control code.
    Control(ControlCode),
    /// A device control string that is none of those below.
    DeviceControl(DeviceControlMode),
    /// An operating system command.
    OperatingSystemCommand(Box<OperatingSystemCommand>),
    /// A value of a control sequence.
    CSI(CSI),
    /// An escape sequence.
    Esc(Esc),
    /// A sixel image.
    Sixel(Box<Sixel>),
    /// The names of capabilities that are asked for.
    XtGetTcap(Vec<String>),
    /// A command of kitty's graphics protocol.
    KittyImage(Box<KittyImage>),
}

impl Action {
    /// Appends it, and joins a character with those that are printed before it into one
    /// `PrintString`.
    pub fn append_to(self, actions: &mut Vec<Action>) {
        let Action::Print(c) = self else {
            return actions.push(self);
        };
        match actions.last_mut() {
            Some(Action::PrintString(text)) => text.push(c),
            Some(last @ Action::Print(_)) => {
                let mut text = String::new();
                if let Action::Print(first) = last {
                    text.push(*first);
                }
                text.push(c);
                *last = Action::PrintString(text);
            }
            _ => actions.push(self),
        }
    }

    /// Calls `callback` with the actions here of one of the crate: a value of a control sequence
    /// and a character each by itself. `room` is for the entries of a sequence.
    pub(super) fn give(
        action: action::Action,
        room: &mut Vec<CsiParam>,
        callback: &mut impl FnMut(Action),
    ) {
        match action {
            action::Action::Print(c) => callback(Action::Print(c)),
            action::Action::PrintString(text) => {
                for c in text.chars() {
                    callback(Action::Print(c));
                }
            }
            action::Action::CSI(it) => {
                let entries = (&it.params[..], it.parameters_truncated, it.control);
                Action::give_sequence(entries, room, callback);
            }
            action::Action::Control(code) => callback(Action::Control(code)),
            action::Action::Esc(it) => {
                callback(Action::Esc(Esc::parse(it.intermediate, it.control)));
            }
            action::Action::DeviceControl(mode) => callback(Action::DeviceControl(mode)),
            action::Action::OperatingSystemCommand(command) => {
                callback(Action::OperatingSystemCommand(command));
            }
            action::Action::Sixel(image) => callback(Action::Sixel(image)),
            action::Action::XtGetTcap(names) => callback(Action::XtGetTcap(names)),
            action::Action::KittyImage(image) => callback(Action::KittyImage(image)),
        }
    }

    /// The same of a control sequence: its entries, whether more came, and its final byte.
    pub(super) fn give_sequence(
        (entries, is_truncated, control): (&[Entry], bool, u8),
        room: &mut Vec<CsiParam>,
        callback: &mut impl FnMut(Action),
    ) {
        room.clear();
        room.extend(entries.iter().map(|it| match it.byte() {
            Some(byte) => CsiParam::P(byte),
            None => CsiParam::Integer(it.number().unwrap_or(0)),
        }));
        for value in CSI::parse(room, is_truncated, control.into()) {
            callback(Action::CSI(value));
        }
    }
}

// Writes bytes without the terminator of strings.
fn show_open(bytes: Result<Vec<u8>, Error>, f: &mut fmt::Formatter<'_>) -> fmt::Result {
    let open = bytes.map(|mut bytes| {
        if bytes.ends_with(TERMINATOR) {
            bytes.truncate(bytes.len() - TERMINATOR.len());
        }
        bytes
    });
    written::show(open, f)
}

/// Writes its bytes. Those of an image, of a query and of a mode that ends have no terminator: the
/// action after them is one. It fails if an image or a command would not read back.
impl fmt::Display for Action {
    fn fmt(&self, f: &mut fmt::Formatter<'_>) -> fmt::Result {
        match self {
            Action::Print(c) => c.fmt(f),
            Action::PrintString(text) => text.fmt(f),
            Action::Control(code) => char::from(*code as u8).fmt(f),
            Action::DeviceControl(DeviceControlMode::Exit) => Ok(()),
            Action::DeviceControl(mode) => mode.fmt(f),
            Action::OperatingSystemCommand(command) => command.fmt(f),
            Action::CSI(it) => it.fmt(f),
            Action::Esc(it) => it.fmt(f),
            Action::Sixel(image) => show_open(image.to_bytes(), f),
            Action::XtGetTcap(names) => {
                show_open(action::Action::XtGetTcap(names.clone()).to_bytes(), f)
            }
            Action::KittyImage(image) => show_open(image.to_bytes(), f),
        }
    }
}
