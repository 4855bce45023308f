// SPDX-License-Identifier: MIT
//! The actions of device control strings, but for images and termcap queries.
use crate::borrowed::{self, DeviceControlMode as Mode};
use alloc::boxed::Box;
use alloc::vec::Vec;
use core::fmt;

/// A short device control, or a step of a device control string that enters a mode: its header,
/// each byte of its data, and its end.
#[derive(Clone, PartialEq, Eq)]
#[cfg_attr(feature = "serde", derive(serde::Serialize, serde::Deserialize))]
#[non_exhaustive]
pub enum DeviceControlMode {
    /// A mode is entered, until `Exit`.
    Enter(Box<EnterDeviceControlMode>),
    /// The mode that was entered ends.
    Exit,
    /// A byte of data for the mode that was entered.
    Data(u8),
    /// A short device control.
    ShortDeviceControl(Box<ShortDeviceControl>),
}

/// The header of a device control string: the mode that the string enters, until it ends.
#[derive(Clone, PartialEq, Eq)]
#[cfg_attr(feature = "serde", derive(serde::Serialize, serde::Deserialize))]
pub struct EnterDeviceControlMode {
    /// The final byte.
    pub byte: u8,
    /// The parameters. One that the header leaves out is 0.
    pub params: Vec<i64>,
    /// The first two intermediates, a private prefix first.
    pub intermediates: Vec<u8>,
    /// Whether more came.
    pub ignored_extra_intermediates: bool,
}

/// A device control string that is given whole, since it is short: a request for a setting.
#[derive(Clone, PartialEq, Eq)]
#[cfg_attr(feature = "serde", derive(serde::Serialize, serde::Deserialize))]
pub struct ShortDeviceControl {
    /// The parameters. One that the header leaves out is 0.
    pub params: Vec<i64>,
    /// The intermediates.
    pub intermediates: Vec<u8>,
    /// The final byte.
    pub byte: u8,
    /// The data.
    pub data: Vec<u8>,
}

impl fmt::Debug for DeviceControlMode {
    fn fmt(&self, f: &mut fmt::Formatter<'_>) -> fmt::Result {
        match self {
            DeviceControlMode::Enter(enter) => Mode::Enter(&(&**enter).into()).fmt(f),
            DeviceControlMode::Exit => Mode::Exit.fmt(f),
            DeviceControlMode::Data(byte) => Mode::Data(*byte).fmt(f),
            DeviceControlMode::ShortDeviceControl(short) => {
                Mode::ShortDeviceControl(&(&**short).into()).fmt(f)
            }
        }
    }
}

impl fmt::Debug for EnterDeviceControlMode {
    fn fmt(&self, f: &mut fmt::Formatter<'_>) -> fmt::Result {
        borrowed::EnterDeviceControlMode::from(self).fmt(f)
    }
}

impl fmt::Debug for ShortDeviceControl {
    fn fmt(&self, f: &mut fmt::Formatter<'_>) -> fmt::Result {
        borrowed::ShortDeviceControl::from(self).fmt(f)
    }
}
