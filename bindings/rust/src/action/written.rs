// SPDX-License-Identifier: MIT
//! The bytes of actions.
use super::{
    Action, CSI, ControlCode, DeviceControlMode, EnterDeviceControlMode, Esc, ShortDeviceControl,
};
use crate::Error;
use crate::written::{Numbers, TERMINATOR, checked, checked_string, displayed};
use alloc::format;
use alloc::string::String;
use alloc::vec::Vec;
use core::fmt::Write;

displayed!(
    Action,
    CSI,
    ControlCode,
    DeviceControlMode,
    EnterDeviceControlMode,
    Esc,
    ShortDeviceControl
);

/// The bytes of actions, one after another: the normal form of a stream that means them, as
/// [`normal`](crate::normal) has it. A string is ended once, whether its terminator is among the
/// actions or not.
///
/// ```
/// use escape_stream::action::{Parser, encode};
///
/// let actions = Parser::new().parse_as_vec(b"a\x1b]0;title\x07\x1b[01mb");
/// assert_eq!(encode(&actions)?, b"a\x1b]0;title\x1b\\\x1b[1mb");
/// # Ok::<(), escape_stream::Error>(())
/// ```
///
/// # Errors
///
/// [`Error::NotWritable`] if an action cannot be written, as [`Action::to_bytes`] has it, or
/// if the steps of a mode, `Enter`, `Data` and `Exit`, do not follow one another.
/// [`Error::Memory`] if the library was refused memory.
pub fn encode(actions: &[Action]) -> Result<Vec<u8>, Error> {
    let mut text = Vec::new();
    let (mut is_entered, mut ends_in_string) = (false, false);
    for action in actions {
        let is_step = matches!(
            action,
            Action::DeviceControl(DeviceControlMode::Data(_) | DeviceControlMode::Exit)
        );
        if is_step != is_entered {
            return Err(Error::NotWritable);
        }
        is_entered = match action {
            Action::DeviceControl(DeviceControlMode::Enter(_)) => true,
            Action::DeviceControl(DeviceControlMode::Exit) => false,
            _ => is_entered,
        };
        let is_written = ends_in_string && matches!(action, Action::Esc(it) if it.is_terminator());
        if !is_written {
            text.extend_from_slice(&action.to_bytes()?);
        }
        ends_in_string = !is_written && action.ends_string();
    }
    if is_entered {
        return Err(Error::NotWritable);
    }
    Ok(text)
}

impl Action {
    /// The bytes of this action: the normal form of a stream that means it. A string has its
    /// terminator, but `Enter` and `Data` are parts of one.
    ///
    /// ```
    /// use escape_stream::{Error, action::Action};
    ///
    /// assert_eq!(Action::PrintString("caf\u{e9}".into()).to_string(), "caf\u{e9}");
    /// assert_eq!(Action::Print('\x1b').to_bytes(), Err(Error::NotWritable));
    /// ```
    ///
    /// # Errors
    ///
    /// [`Error::NotWritable`] if no bytes would read back as it: a text with a control, a
    /// control or an escape sequence that opens a string or a sequence, and others.
    /// [`Error::Memory`] if the library was refused memory.
    pub fn to_bytes(&self) -> Result<Vec<u8>, Error> {
        match self {
            Action::Print(c) => clear(c.encode_utf8(&mut [0; 4])),
            Action::PrintString(text) => clear(text),
            Action::Control(code) => code.to_bytes(),
            Action::DeviceControl(mode) => mode.to_bytes(),
            Action::OperatingSystemCommand(command) => command.to_bytes(),
            Action::CSI(sequence) => sequence.to_bytes(),
            Action::Esc(escape) => escape.to_bytes(),
            Action::Sixel(sixel) => sixel.to_bytes(),
            Action::XtGetTcap(names) => query(names),
            Action::KittyImage(image) => image.to_bytes(),
        }
    }

    // Whether its bytes end with the terminator of a string.
    fn ends_string(&self) -> bool {
        match self {
            Action::Print(_) | Action::PrintString(_) | Action::Control(_) => false,
            Action::CSI(_) | Action::Esc(_) => false,
            Action::DeviceControl(mode) => match mode {
                DeviceControlMode::Enter(_) | DeviceControlMode::Data(_) => false,
                DeviceControlMode::Exit | DeviceControlMode::ShortDeviceControl(_) => true,
            },
            Action::OperatingSystemCommand(_) | Action::Sixel(_) => true,
            Action::XtGetTcap(_) | Action::KittyImage(_) => true,
        }
    }
}

// Text without controls.
fn clear(text: &str) -> Result<Vec<u8>, Error> {
    let is_control = |c| matches!(c, '\0'..='\x1f' | '\u{80}'..='\u{9f}');
    if text.contains(is_control) {
        return Err(Error::NotWritable);
    }
    Ok(text.into())
}

// A query for these names, in hexadecimal.
fn query(names: &[String]) -> Result<Vec<u8>, Error> {
    let mut text = String::from("\x1bP+q");
    for (i, name) in names.iter().enumerate() {
        text += if i > 0 { ";" } else { "" };
        for byte in name.bytes() {
            let _ = write!(text, "{byte:02x}");
        }
    }
    text += "\x1b\\";
    checked_string(
        text.as_bytes(),
        |found| matches!(found, Action::XtGetTcap(it) if it == names),
    )
}

impl ControlCode {
    /// The bytes of this control: a control of C1 in UTF-8.
    ///
    /// # Errors
    ///
    /// [`Error::NotWritable`] of `Escape`, and of those of C1 that open or end a string or open a
    /// control sequence.
    pub fn to_bytes(self) -> Result<Vec<u8>, Error> {
        match self {
            ControlCode::Escape | ControlCode::DCS | ControlCode::SOS | ControlCode::CSI => {
                Err(Error::NotWritable)
            }
            ControlCode::ST | ControlCode::OSC | ControlCode::PM | ControlCode::APC => {
                Err(Error::NotWritable)
            }
            _ => Ok(String::from(char::from(self as u8)).into()),
        }
    }
}

impl Esc {
    /// The bytes of this sequence.
    ///
    /// # Errors
    ///
    /// As [`Action::to_bytes`]: it opens a string or a control sequence, or is no sequence.
    pub fn to_bytes(self) -> Result<Vec<u8>, Error> {
        let bytes = match self.intermediate {
            Some(byte) => [&b"\x1b"[..], &[byte, self.control]].concat(),
            None => [&b"\x1b"[..], &[self.control]].concat(),
        };
        checked(&bytes, |found| *found == [Action::Esc(self)])
    }

    // Whether it is the terminator of strings.
    pub(crate) fn is_terminator(self) -> bool {
        self.intermediate.is_none() && self.control == b'\\'
    }
}

impl CSI {
    /// The bytes of this sequence. Some have several, as renditions each by itself.
    ///
    /// # Errors
    ///
    /// As [`Action::to_bytes`]: parameters were left out of it, or it is no sequence.
    pub fn to_bytes(&self) -> Result<Vec<u8>, Error> {
        let mut bytes = Vec::from(*b"\x1b[");
        for entry in &self.params {
            match (entry.number(), entry.byte()) {
                (Some(number), _) => bytes.extend_from_slice(format!("{number}").as_bytes()),
                (_, byte) => bytes.extend(byte),
            }
        }
        bytes.push(self.control);
        checked(
            &bytes,
            |found| matches!(found, [Action::CSI(it)] if it == self),
        )
    }
}

impl DeviceControlMode {
    /// The bytes of this step: of `Exit` the terminator of strings.
    ///
    /// # Errors
    ///
    /// As [`Action::to_bytes`]: a byte that is no data, or a header that is none or opens no mode.
    pub fn to_bytes(&self) -> Result<Vec<u8>, Error> {
        match self {
            DeviceControlMode::Enter(enter) => enter.to_bytes(),
            DeviceControlMode::Exit => Ok(TERMINATOR.into()),
            DeviceControlMode::Data(byte @ (0x00..=0x17 | 0x19 | 0x1c..=0x7e)) => {
                Ok([*byte].into())
            }
            DeviceControlMode::Data(_) => Err(Error::NotWritable),
            DeviceControlMode::ShortDeviceControl(short) => short.to_bytes(),
        }
    }
}

impl EnterDeviceControlMode {
    /// The bytes of this header.
    ///
    /// # Errors
    ///
    /// As [`Action::to_bytes`]: it is no header, or opens no mode.
    pub fn to_bytes(&self) -> Result<Vec<u8>, Error> {
        let mut bytes = header(&self.params, &self.intermediates, self.byte);
        bytes.extend_from_slice(TERMINATOR);
        let mut bytes = checked(&bytes, |found| {
            matches!(found, [
                Action::DeviceControl(DeviceControlMode::Enter(it)),
                Action::DeviceControl(DeviceControlMode::Exit),
                Action::Esc(_),
            ] if **it == *self)
        })?;
        if bytes.ends_with(TERMINATOR) {
            bytes.truncate(bytes.len() - TERMINATOR.len());
        }
        Ok(bytes)
    }
}

impl ShortDeviceControl {
    /// The bytes of this string, with its terminator.
    ///
    /// # Errors
    ///
    /// As [`Action::to_bytes`]: it is no such string, or has data that would end it.
    pub fn to_bytes(&self) -> Result<Vec<u8>, Error> {
        if !self.data.is_ascii() {
            return Err(Error::NotWritable);
        }
        let mut bytes = header(&self.params, &self.intermediates, self.byte);
        bytes.extend_from_slice(&self.data);
        bytes.extend_from_slice(TERMINATOR);
        checked_string(&bytes, |found| match found {
            Action::DeviceControl(DeviceControlMode::ShortDeviceControl(it)) => **it == *self,
            _ => false,
        })
    }
}

// The header of a device control string. A marker is before the parameters.
fn header(params: &[i64], intermediates: &[u8], byte: u8) -> Vec<u8> {
    let is_marker = |byte: &u8| matches!(byte, b'<'..=b'?');
    let markers = usize::from(intermediates.first().is_some_and(is_marker));
    let (marker, others) = intermediates.split_at(markers);
    let params = format!("{}", Numbers(params));
    [b"\x1bP", marker, params.as_bytes(), others, &[byte]].concat()
}
