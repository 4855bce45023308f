// SPDX-License-Identifier: MIT
//! Control sequences of the terminal itself.
use super::graphics::XtSmGraphics;
use super::sequence::{CsiParam, Sequence};
use crate::termwiz::choices::choices;
use alloc::vec::Vec;
use core::fmt;

/// A request to the terminal itself, or a report by it.
#[derive(Clone, Debug, PartialEq, Eq)]
#[cfg_attr(feature = "serde", derive(serde::Serialize, serde::Deserialize))]
pub enum Device {
    /// DA1 reports what it is.
    DeviceAttributes(DeviceAttributes),
    /// DECSTR resets what programs set.
    SoftReset,
    /// DA1 asks what it is.
    RequestPrimaryDeviceAttributes,
    /// DA2 asks for its version.
    RequestSecondaryDeviceAttributes,
    /// DA3 asks for its unit.
    RequestTertiaryDeviceAttributes,
    /// DSR asks whether it is well.
    StatusReport,
    /// XTVERSION asks for its name and version.
    RequestTerminalNameAndVersion,
    /// DECREQTPARM asks for its parameters, by 0 or 1.
    RequestTerminalParameters(i64),
    /// XTSMGRAPHICS asks for a limit of its graphics, or reports one.
    XtSmGraphics(XtSmGraphics),
}

/// The kind of a terminal, as it reports.
#[derive(Clone, Debug, PartialEq, Eq)]
#[cfg_attr(feature = "serde", derive(serde::Serialize, serde::Deserialize))]
pub enum DeviceAttributes {
    /// It is a VT100 with the option for advanced video.
    Vt100WithAdvancedVideoOption,
    /// It is a VT101 without options.
    Vt101WithNoOptions,
    /// It is a VT102.
    Vt102,
    /// It is a VT220 with these attributes.
    Vt220(DeviceAttributeFlags),
    /// It is a VT320 with these attributes.
    Vt320(DeviceAttributeFlags),
    /// It is a VT420 with these attributes.
    Vt420(DeviceAttributeFlags),
}

/// The attributes of a terminal.
#[derive(Clone, Debug, PartialEq, Eq)]
#[cfg_attr(feature = "serde", derive(serde::Serialize, serde::Deserialize))]
pub struct DeviceAttributeFlags {
    /// Each attribute, in order.
    pub attributes: Vec<DeviceAttribute>,
}

/// An attribute of a terminal.
#[derive(Clone, Copy, Debug, PartialEq, Eq)]
#[cfg_attr(feature = "serde", derive(serde::Serialize, serde::Deserialize))]
pub enum DeviceAttribute {
    /// It has a name.
    Code(DeviceAttributeCodes),
    /// It has none here.
    Unspecified(CsiParam),
}

choices! {
    /// The attributes with names.
    DeviceAttributeCodes {
        /// It has lines of 132 columns.
        Columns132 = 1,
        /// It has a printer.
        Printer = 2,
        /// It draws ReGIS.
        RegisGraphics = 3,
        /// It draws sixels.
        SixelGraphics = 4,
        /// It erases selectively.
        SelectiveErase = 6,
        /// It has keys that users define.
        UserDefinedKeys = 8,
        /// It has national replacement sets.
        NationalReplacementCharsets = 9,
        /// It has technical characters.
        TechnicalCharacters = 15,
        /// It has windows.
        UserWindows = 18,
        /// It scrolls horizontally.
        HorizontalScrolling = 21,
        /// It has colours.
        AnsiColor = 22,
        /// It has a locator.
        AnsiTextLocator = 29,
    }
}

impl DeviceAttributeFlags {
    /// The set of these attributes.
    #[must_use]
    pub fn new(attributes: Vec<DeviceAttribute>) -> DeviceAttributeFlags {
        DeviceAttributeFlags { attributes }
    }

    // The attributes after the first parameter.
    fn of(params: &[CsiParam]) -> Option<DeviceAttributeFlags> {
        let parts = params.split(|it| *it == CsiParam::P(b';')).skip(1);
        let attribute = |part: &[CsiParam]| match *part {
            [param @ CsiParam::Integer(number)] => Some(
                DeviceAttributeCodes::of(number)
                    .map_or(DeviceAttribute::Unspecified(param), DeviceAttribute::Code),
            ),
            _ => None,
        };
        let attributes = parts.map(attribute).collect::<Option<Vec<_>>>()?;
        Some(DeviceAttributeFlags { attributes })
    }
}

impl DeviceAttributes {
    fn of(sequence: &Sequence<'_>) -> Option<DeviceAttributes> {
        match *sequence.params {
            [CsiParam::Integer(6)] => Some(DeviceAttributes::Vt102),
            [CsiParam::Integer(1), _, CsiParam::Integer(2)] => {
                Some(DeviceAttributes::Vt100WithAdvancedVideoOption)
            }
            [CsiParam::Integer(1), _, CsiParam::Integer(0)] => {
                Some(DeviceAttributes::Vt101WithNoOptions)
            }
            [CsiParam::Integer(number @ 62..=64), ..] => {
                let flags = DeviceAttributeFlags::of(sequence.params)?;
                Some(match number {
                    62 => DeviceAttributes::Vt220(flags),
                    63 => DeviceAttributes::Vt320(flags),
                    _ => DeviceAttributes::Vt420(flags),
                })
            }
            _ => None,
        }
    }
}

impl Device {
    pub(super) fn of(sequence: &Sequence<'_>) -> Option<Device> {
        let is_request = || matches!(sequence.numbers(), Some([None | Some(0)]));
        match (sequence.prefix, sequence.intermediate, sequence.last) {
            (None, None, 'c') if is_request() => Some(Device::RequestPrimaryDeviceAttributes),
            (Some(b'>'), None, 'c') if is_request() => {
                Some(Device::RequestSecondaryDeviceAttributes)
            }
            (Some(b'='), None, 'c') if is_request() => {
                Some(Device::RequestTertiaryDeviceAttributes)
            }
            (Some(b'?'), None, 'c') => DeviceAttributes::of(sequence).map(Device::DeviceAttributes),
            (Some(b'>'), None, 'q') if is_request() => Some(Device::RequestTerminalNameAndVersion),
            (None, None, 'n') if sequence.choice()? == 5 => Some(Device::StatusReport),
            (None, None, 'x') => {
                let kind = sequence.choice().filter(|it| matches!(it, 0 | 1))?;
                Some(Device::RequestTerminalParameters(kind))
            }
            (None, Some(b'!'), 'p') if sequence.params.is_empty() => Some(Device::SoftReset),
            (Some(b'?'), None, 'S') => XtSmGraphics::of(sequence).map(Device::XtSmGraphics),
            _ => None,
        }
    }
}

impl fmt::Display for DeviceAttributes {
    fn fmt(&self, f: &mut fmt::Formatter<'_>) -> fmt::Result {
        let (number, flags) = match self {
            DeviceAttributes::Vt100WithAdvancedVideoOption => return f.write_str("?1;2c"),
            DeviceAttributes::Vt101WithNoOptions => return f.write_str("?1;0c"),
            DeviceAttributes::Vt102 => return f.write_str("?6c"),
            DeviceAttributes::Vt220(flags) => (62, flags),
            DeviceAttributes::Vt320(flags) => (63, flags),
            DeviceAttributes::Vt420(flags) => (64, flags),
        };
        write!(f, "?{number}")?;
        for attribute in &flags.attributes {
            match attribute {
                DeviceAttribute::Code(code) => write!(f, ";{}", code.number())?,
                DeviceAttribute::Unspecified(param) => write!(f, ";{param}")?,
            }
        }
        f.write_str("c")
    }
}

// The text after `ESC [`.
impl fmt::Display for Device {
    fn fmt(&self, f: &mut fmt::Formatter<'_>) -> fmt::Result {
        f.write_str(match self {
            Device::DeviceAttributes(attributes) => return attributes.fmt(f),
            Device::RequestTerminalParameters(number) => return write!(f, "{number}x"),
            Device::XtSmGraphics(graphics) => return graphics.fmt(f),
            Device::SoftReset => "!p",
            Device::RequestPrimaryDeviceAttributes => "c",
            Device::RequestSecondaryDeviceAttributes => ">c",
            Device::RequestTertiaryDeviceAttributes => "=c",
            Device::StatusReport => "5n",
            Device::RequestTerminalNameAndVersion => ">q",
        })
    }
}
