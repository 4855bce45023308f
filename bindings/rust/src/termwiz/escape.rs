// SPDX-License-Identifier: MIT
//! Actions and their parser.
mod action;
pub mod csi;
pub mod esc;
mod one_based;
pub mod parser;

pub use crate::action::{
    ControlCode, DeviceControlMode, EnterDeviceControlMode, ShortDeviceControl,
};
pub use crate::apc::KittyImage;
pub use crate::dcs::{Sixel, SixelData, SixelValue};
pub use crate::osc::OperatingSystemCommand;
pub use action::Action;
pub use csi::CSI;
pub use esc::{Esc, EscCode};
pub use one_based::OneBased;

/// Application program commands: images of kitty's.
pub mod apc {
    pub use crate::apc::*;
}

/// Operating system commands.
pub mod osc {
    pub use crate::osc::*;
}
