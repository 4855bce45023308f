// SPDX-License-Identifier: MIT
//! The actions of device control strings, but for images and termcap queries.
use crate::action;
use alloc::boxed::Box;
use core::fmt;

/// A short device control, or a step of a device control string that enters a mode: its header,
/// each byte of its data, and its end.
#[derive(Clone, Copy, PartialEq, Eq)]
#[non_exhaustive]
pub enum DeviceControlMode<'a> {
    /// A mode is entered, until `Exit`.
    Enter(&'a EnterDeviceControlMode<'a>),
    /// The mode that was entered ends.
    Exit,
    /// A byte of data for the mode that was entered.
    Data(u8),
    /// A short device control.
    ShortDeviceControl(&'a ShortDeviceControl<'a>),
}

/// The header of a device control string: the mode that the string enters, until it ends.
#[derive(Clone, Copy, PartialEq, Eq)]
pub struct EnterDeviceControlMode<'a> {
    /// The final byte.
    pub byte: u8,
    /// The parameters. One that the header leaves out is 0.
    pub params: &'a [i64],
    /// The first two intermediates, a private prefix first.
    pub intermediates: &'a [u8],
    /// Whether more came.
    pub ignored_extra_intermediates: bool,
}

/// A device control string that is given whole, since it is short: a request for a setting.
#[derive(Clone, Copy, PartialEq, Eq)]
pub struct ShortDeviceControl<'a> {
    /// The parameters. One that the header leaves out is 0.
    pub params: &'a [i64],
    /// The intermediates.
    pub intermediates: &'a [u8],
    /// The final byte.
    pub byte: u8,
    /// The data.
    pub data: &'a [u8],
}

impl DeviceControlMode<'_> {
    /// The owned value.
    #[must_use]
    pub fn into_owned(self) -> action::DeviceControlMode {
        use action::DeviceControlMode as Mode;
        match self {
            DeviceControlMode::Enter(enter) => Mode::Enter(Box::new(enter.into_owned())),
            DeviceControlMode::Exit => Mode::Exit,
            DeviceControlMode::Data(byte) => Mode::Data(byte),
            DeviceControlMode::ShortDeviceControl(short) => {
                Mode::ShortDeviceControl(Box::new(short.into_owned()))
            }
        }
    }
}

impl EnterDeviceControlMode<'_> {
    /// The owned header.
    #[must_use]
    pub fn into_owned(self) -> action::EnterDeviceControlMode {
        action::EnterDeviceControlMode {
            byte: self.byte,
            params: self.params.into(),
            intermediates: self.intermediates.into(),
            ignored_extra_intermediates: self.ignored_extra_intermediates,
        }
    }
}

impl ShortDeviceControl<'_> {
    /// The owned string.
    #[must_use]
    pub fn into_owned(self) -> action::ShortDeviceControl {
        action::ShortDeviceControl {
            params: self.params.into(),
            intermediates: self.intermediates.into(),
            byte: self.byte,
            data: self.data.into(),
        }
    }
}

impl<'a> From<&'a action::EnterDeviceControlMode> for EnterDeviceControlMode<'a> {
    fn from(enter: &'a action::EnterDeviceControlMode) -> EnterDeviceControlMode<'a> {
        EnterDeviceControlMode {
            byte: enter.byte,
            params: &enter.params,
            intermediates: &enter.intermediates,
            ignored_extra_intermediates: enter.ignored_extra_intermediates,
        }
    }
}

impl<'a> From<&'a action::ShortDeviceControl> for ShortDeviceControl<'a> {
    fn from(short: &'a action::ShortDeviceControl) -> ShortDeviceControl<'a> {
        ShortDeviceControl {
            params: &short.params,
            intermediates: &short.intermediates,
            byte: short.byte,
            data: &short.data,
        }
    }
}

// Bytes as `termwiz` shows them: each as its character and its number.
struct Shown<'a>(&'a [u8]);

impl fmt::Display for Shown<'_> {
    fn fmt(&self, f: &mut fmt::Formatter<'_>) -> fmt::Result {
        let show = |byte: &u8| write!(f, "{:?} {byte:#x}, ", char::from(*byte));
        self.0.iter().try_for_each(show)
    }
}

impl fmt::Debug for DeviceControlMode<'_> {
    fn fmt(&self, f: &mut fmt::Formatter<'_>) -> fmt::Result {
        match self {
            DeviceControlMode::Enter(enter) => write!(f, "Enter({enter:?})"),
            DeviceControlMode::Exit => f.write_str("Exit"),
            DeviceControlMode::Data(byte) => {
                write!(f, "Data({:?} {byte:#x})", char::from(*byte))
            }
            DeviceControlMode::ShortDeviceControl(short) => {
                write!(f, "ShortDeviceControl({short:?})")
            }
        }
    }
}

impl fmt::Debug for EnterDeviceControlMode<'_> {
    fn fmt(&self, f: &mut fmt::Formatter<'_>) -> fmt::Result {
        let (params, intermediates) = (self.params, Shown(self.intermediates));
        let (character, byte) = (char::from(self.byte), self.byte);
        let ignored = self.ignored_extra_intermediates;
        write!(
            f,
            "EnterDeviceControlMode(params: {params:?}, intermediates: [{intermediates}], "
        )?;
        write!(
            f,
            "byte: {character:?} {byte:#x}, ignored_extra_intermediates={ignored})"
        )
    }
}

impl fmt::Debug for ShortDeviceControl<'_> {
    fn fmt(&self, f: &mut fmt::Formatter<'_>) -> fmt::Result {
        let (params, intermediates) = (self.params, Shown(self.intermediates));
        let (character, byte, data) = (char::from(self.byte), self.byte, Shown(self.data));
        write!(
            f,
            "ShortDeviceControl(params: {params:?}, intermediates: [{intermediates}], "
        )?;
        write!(f, "byte: {character:?} {byte:#x}, data=[{data})")
    }
}
