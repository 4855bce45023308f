// SPDX-License-Identifier: MIT
//! A stream as actions: the printed text, and the request of each control and each string.
//!
//! The names are those of the crate `termwiz`. A control or an escape sequence comes as it is, with
//! the name of its function. Values are owned; the module [`borrowed`](crate::borrowed) has those
//! that are not.
mod control_code;
mod device;
mod device_string;
mod entries;
mod parser;
mod receiver;
mod sequence;
mod taker;
mod written;

pub use control_code::ControlCode;
pub use device::{DeviceControlMode, EnterDeviceControlMode, ShortDeviceControl};
pub use entries::Entries;
pub use parser::{Actions, Parser};
pub use sequence::{CSI, Esc};
pub use written::encode;

use crate::apc::KittyImage;
use crate::dcs::Sixel;
use crate::osc::OperatingSystemCommand;
use alloc::boxed::Box;
use alloc::string::String;
use alloc::vec::Vec;

/// The request of a part of a stream.
#[derive(Clone, Debug, PartialEq)]
#[cfg_attr(feature = "serde", derive(serde::Serialize, serde::Deserialize))]
#[non_exhaustive]
pub enum Action {
    /// Prints a character.
    Print(char),
    /// Prints characters.
    PrintString(String),
    /// A control code.
    Control(ControlCode),
    /// A device control string that is none of those below.
    DeviceControl(DeviceControlMode),
    /// An operating system command.
    OperatingSystemCommand(Box<OperatingSystemCommand>),
    /// A control sequence.
    CSI(CSI),
    /// An escape sequence.
    Esc(Esc),
    /// A sixel image.
    Sixel(Box<Sixel>),
    /// The names of capabilities that are asked for.
    XtGetTcap(Vec<String>),
    /// A command of kitty's graphics protocol.
    KittyImage(Box<KittyImage>),
}

impl Action {
    /// Appends it, and joins texts that are printed one after another into one `PrintString`.
    pub fn append_to(self, actions: &mut Vec<Action>) {
        let mut room = [0; 4];
        let more = match &self {
            Action::Print(c) => &*c.encode_utf8(&mut room),
            Action::PrintString(text) => text,
            _ => return actions.push(self),
        };
        match actions.last_mut() {
            Some(Action::PrintString(text)) => text.push_str(more),
            Some(last @ Action::Print(_)) => {
                let mut text = String::new();
                if let Action::Print(first) = last {
                    text.push(*first);
                }
                text.push_str(more);
                *last = Action::PrintString(text);
            }
            _ => actions.push(self),
        }
    }
}
