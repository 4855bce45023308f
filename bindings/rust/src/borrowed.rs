// SPDX-License-Identifier: MIT
//! Actions that borrow: their texts, parameters and data lie in the bytes that were given, or in
//! the parser's memory. [`Parser::parse_borrowed`](crate::action::Parser::parse_borrowed) gives
//! them.
//!
//! Names, variants and fields are those of the owned values in [`action`](crate::action),
//! [`osc`](crate::osc) and [`apc`](crate::apc), and a value with neither text nor list has the same
//! type. For a `String`, a `Vec<u8>` or a `Box` of an owned value a borrowed one has `&str`,
//! `&[u8]` or a reference, and for another list or a map a [`List`]. Each is `Copy`, and
//! `into_owned` makes of it the owned value.
//!
//! ```
//! use escape_stream::action::Parser;
//! use escape_stream::borrowed::{Action, OperatingSystemCommand};
//!
//! let mut length = 0;
//! Parser::new().parse_borrowed(b"some text\x1b]2;a title\x07", |action| match action {
//!     Action::PrintString(text) => length += text.len(),
//!     Action::OperatingSystemCommand(command) => match *command {
//!         OperatingSystemCommand::SetWindowTitle(title) => assert_eq!(title, "a title"),
//!         _ => {}
//!     },
//!     _ => {}
//! });
//! assert_eq!(length, 9);
//! ```
mod action;
mod apc;
mod device;
mod iterm;
mod list;
mod osc;
mod plain;
mod prompt;
mod transmit;

pub(crate) use action::single;
pub use action::{Action, CSI};
pub use apc::KittyImage;
pub use device::{DeviceControlMode, EnterDeviceControlMode, ShortDeviceControl};
pub use iterm::{ITermFileData, ITermProprietary, ITermUnicodeVersionOp};
pub use list::{List, ListIter};
pub use osc::{Hyperlink, OperatingSystemCommand};
pub use prompt::FinalTermSemanticPrompt;
pub use transmit::{KittyImageData, KittyImageTransmit};

use crate::written::displayed;

/// Implements `to_bytes`, as the owned value has it, and by it `Display`.
macro_rules! written {
    ($($value:ident),+) => {
        $(
            impl $value<'_> {
                /// The bytes of this value: those of the owned one, for which memory is taken.
                ///
                /// # Errors
                ///
                /// Those of the call of this name of the owned value.
                pub fn to_bytes(&self) -> Result<alloc::vec::Vec<u8>, crate::Error> {
                    self.into_owned().to_bytes()
                }
            }

            displayed!($value<'_>);
        )+
    };
}

written!(
    Action,
    CSI,
    DeviceControlMode,
    EnterDeviceControlMode,
    KittyImage,
    OperatingSystemCommand,
    ShortDeviceControl
);
