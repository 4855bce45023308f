// SPDX-License-Identifier: MIT
//! Operating system commands as values: titles, links, clipboards, colours, prompts and the
//! commands of iTerm2.
//!
//! The names are those of the crate `termwiz`. Texts are owned, but for the values of the module
//! [`borrowed`], and sizes in tenths are whole numbers.
mod iterm;
mod prompt;
mod said;
mod values;

pub use iterm::{ITermDimension, ITermFileData, ITermProprietary, ITermUnicodeVersionOp};
pub use prompt::{FinalTermClick, FinalTermPromptKind, FinalTermSemanticPrompt};
pub use values::{
    ChangeColorPair, Color16, ColorOrQuery, DynamicColorNumber, Hyperlink, Progress, Selection,
};

use crate::fields::{Room, make_room};
use crate::written::displayed;
use crate::{Error, borrowed, ffi};
use alloc::string::String;
use alloc::vec::Vec;
use said::Said;

/// An operating system command: a control string between `ESC ]` and a string terminator, whose
/// parts have `;` between them (xterm's list of control sequences, "Operating System Commands").
#[derive(Clone, Debug, PartialEq, Eq)]
#[cfg_attr(feature = "serde", derive(serde::Serialize, serde::Deserialize))]
#[non_exhaustive]
pub enum OperatingSystemCommand {
    /// Code 0: sets the name of the icon and the title of the window.
    SetIconNameAndWindowTitle(String),
    /// Code 2: sets the title of the window.
    SetWindowTitle(String),
    /// Code `l`: sets the title of the window, as Sun's terminals do it.
    SetWindowTitleSun(String),
    /// Code 1: sets the name of the icon.
    SetIconName(String),
    /// Code `L`: sets the name of the icon, as Sun's terminals do it.
    SetIconNameSun(String),
    /// Code 8: the text after it belongs to this link, or to none.
    SetHyperlink(Option<Hyperlink>),
    /// Code 52 with a selection alone: clears it.
    ClearSelection(Selection),
    /// Code 52 with a selection and `?`: asks for its text.
    QuerySelection(Selection),
    /// Code 52 with a selection and a text in base64: sets it.
    SetSelection(Selection, String),
    /// Code 9: shows a notification.
    SystemNotification(String),
    /// Code 1337: a command of iTerm2.
    ITermProprietary(ITermProprietary),
    /// Code 133: the beginning or end of a shell's prompt, of a command or of its output.
    FinalTermSemanticPrompt(FinalTermSemanticPrompt),
    /// Code 4: changes colours of the palette, or asks for them.
    ChangeColorNumber(Vec<ChangeColorPair>),
    /// Codes 10 to 19: changes this dynamic colour and those after it, or asks for them, one a
    /// colour.
    ChangeDynamicColors(DynamicColorNumber, Vec<ColorOrQuery>),
    /// Codes 110 to 119: resets a dynamic colour.
    ResetDynamicColor(DynamicColorNumber),
    /// Code 7: the directory that the shell works in.
    CurrentWorkingDirectory(String),
    /// Code 104: resets these colours of the palette; all of them if none is named.
    ResetColors(Vec<u8>),
    /// Code 777: an extension of rxvt, as its parts.
    RxvtExtension(Vec<String>),
    /// Code 9 with `4`: shows the progress of a task, as ConEmu does it.
    ConEmuProgress(Progress),
    /// Any other command, as its parts.
    Unspecified(Vec<Vec<u8>>),
}

displayed!(OperatingSystemCommand);

impl OperatingSystemCommand {
    /// The command of this text: the bytes between `ESC ]` and their end, as
    /// [`Event::Osc`](crate::Event::Osc) has them. Any bytes are the text of a command.
    ///
    /// ```
    /// use escape_stream::osc::{FinalTermSemanticPrompt, OperatingSystemCommand};
    ///
    /// assert_eq!(
    ///     OperatingSystemCommand::parse(b"2;hello")?,
    ///     OperatingSystemCommand::SetWindowTitle("hello".into()),
    /// );
    /// let link = OperatingSystemCommand::parse(b"8;id=1;http://example.com/")?;
    /// if let OperatingSystemCommand::SetHyperlink(Some(link)) = link {
    ///     assert_eq!(link.uri, "http://example.com/");
    ///     assert_eq!(link.params["id"], "1");
    /// }
    /// assert_eq!(
    ///     OperatingSystemCommand::parse(b"133;D;1")?,
    ///     OperatingSystemCommand::FinalTermSemanticPrompt(FinalTermSemanticPrompt::CommandStatus {
    ///         status: 1,
    ///         aid: None,
    ///     }),
    /// );
    /// # Ok::<(), escape_stream::Error>(())
    /// ```
    ///
    /// # Errors
    ///
    /// [`Error::Memory`] if the library was refused memory; the texts of the value itself take it
    /// as a `String` does. [`Error::Failed`] is excluded by the clauses of the library's call: it
    /// says that a command had other fields than its kind has.
    pub fn parse(text: &[u8]) -> Result<OperatingSystemCommand, Error> {
        let mut room = Room::default();
        let command = borrowed::OperatingSystemCommand::read(text, &mut room)?;
        Ok(command.into_owned())
    }

    /// The bytes of this command: `ESC ]`, its text and `ESC \`. The text between these reads back
    /// as this command, and holds no control but DEL.
    ///
    /// ```
    /// use escape_stream::{Error, osc::OperatingSystemCommand};
    ///
    /// let title = OperatingSystemCommand::SetWindowTitle("hello".into());
    /// assert_eq!(title.to_bytes()?, b"\x1b]2;hello\x1b\\");
    /// let title = OperatingSystemCommand::SetWindowTitle("\x1b[2J".into());
    /// assert_eq!(title.to_bytes(), Err(Error::NotWritable));
    /// # Ok::<(), Error>(())
    /// ```
    ///
    /// # Errors
    ///
    /// [`Error::NotWritable`] if no bytes would read back as this command: a text has a control,
    /// or a `;` that would divide it, or the command has no reading. [`Error::Memory`] if the
    /// library was refused memory; the fields take it as a `Vec` does.
    pub fn to_bytes(&self) -> Result<Vec<u8>, Error> {
        let mut said = Said::default();
        let kind = said.command(self);
        let mut bytes = Vec::new();
        make_room(&mut bytes, said.texts.len().saturating_add(64), 0)?;
        let mut needed = ffi::write_osc(kind, &said.rows, &said.texts, &mut bytes)?;
        if needed > bytes.len() {
            make_room(&mut bytes, needed, 0)?;
            needed = ffi::write_osc(kind, &said.rows, &said.texts, &mut bytes)?;
        }
        bytes.truncate(needed);
        Ok(bytes)
    }
}
