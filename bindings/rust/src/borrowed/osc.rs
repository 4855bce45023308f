// SPDX-License-Identifier: MIT
//! Operating system commands.
use super::plain::plain;
use super::{FinalTermSemanticPrompt, ITermProprietary, List};
use crate::fields::{Fields, Room, kind, name, read};
use crate::osc::{self, ChangeColorPair, ColorOrQuery, DynamicColorNumber, Progress, Selection};
use crate::{Error, ffi};
use alloc::boxed::Box;
use alloc::collections::BTreeMap;
use alloc::string::String;
use alloc::vec::Vec;

/// An operating system command. The owned one is
/// [`osc::OperatingSystemCommand`](crate::osc::OperatingSystemCommand).
#[derive(Clone, Copy, Debug, PartialEq, Eq)]
#[non_exhaustive]
pub enum OperatingSystemCommand<'a> {
    /// Code 0: sets the name of the icon and the title of the window.
    SetIconNameAndWindowTitle(&'a str),
    /// Code 2: sets the title of the window.
    SetWindowTitle(&'a str),
    /// Code `l`: sets the title of the window, as Sun's terminals do it.
    SetWindowTitleSun(&'a str),
    /// Code 1: sets the name of the icon.
    SetIconName(&'a str),
    /// Code `L`: sets the name of the icon, as Sun's terminals do it.
    SetIconNameSun(&'a str),
    /// Code 8: the text after it belongs to this link, or to none.
    SetHyperlink(Option<Hyperlink<'a>>),
    /// Code 52 with a selection alone: clears it.
    ClearSelection(Selection),
    /// Code 52 with a selection and `?`: asks for its text.
    QuerySelection(Selection),
    /// Code 52 with a selection and a text in base64: sets it.
    SetSelection(Selection, &'a str),
    /// Code 9: shows a notification.
    SystemNotification(&'a str),
    /// Code 1337: a command of iTerm2.
    ITermProprietary(ITermProprietary<'a>),
    /// Code 133: the beginning or end of a shell's prompt, of a command or of its output.
    FinalTermSemanticPrompt(FinalTermSemanticPrompt<'a>),
    /// Code 4: changes colours of the palette, or asks for them.
    ChangeColorNumber(List<'a, ChangeColorPair>),
    /// Codes 10 to 19: changes this dynamic colour and those after it, or asks for them, one a
    /// colour.
    ChangeDynamicColors(DynamicColorNumber, List<'a, ColorOrQuery>),
    /// Codes 110 to 119: resets a dynamic colour.
    ResetDynamicColor(DynamicColorNumber),
    /// Code 7: the directory that the shell works in.
    CurrentWorkingDirectory(&'a str),
    /// Code 104: resets these colours of the palette; all of them if none is named.
    ResetColors(List<'a, u8>),
    /// Code 777: an extension of rxvt, as its parts.
    RxvtExtension(List<'a, &'a str>),
    /// Code 9 with `4`: shows the progress of a task, as ConEmu does it.
    ConEmuProgress(Progress),
    /// Any other command, as its parts.
    Unspecified(List<'a, &'a [u8]>),
}

/// A hyperlink: the address of the characters after it ("Hyperlinks in terminal emulators", the
/// command OSC 8).
#[derive(Clone, Copy, Debug, PartialEq, Eq)]
pub struct Hyperlink<'a> {
    /// The parameters, each with its key, in the order of the keys. The key `id` is that of the
    /// link: cells of one id and one address are one link.
    pub params: List<'a, (&'a str, &'a str)>,
    /// The address.
    pub uri: &'a str,
    /// Whether the terminal found it in the text itself. A link that is read has false.
    pub implicit: bool,
}

impl<'a> Hyperlink<'a> {
    fn of(fields: &mut Fields<'a>) -> Option<Hyperlink<'a>> {
        Some(Hyperlink {
            uri: fields.text(name::URI)?,
            implicit: fields.flag(name::IMPLICIT)?,
            params: List::of(fields)?,
        })
    }

    /// The owned link.
    #[must_use]
    pub fn into_owned(self) -> osc::Hyperlink {
        // One by one: `collect` would sort them in a `Vec` first.
        let mut params = BTreeMap::new();
        for (key, value) in self.params {
            params.insert(key.into(), value.into());
        }
        osc::Hyperlink {
            params,
            uri: self.uri.into(),
            implicit: self.implicit,
        }
    }
}

impl<'a> OperatingSystemCommand<'a> {
    /// The command of a text.
    #[inline]
    pub(crate) fn read(
        text: &'a [u8],
        room: &'a mut Room,
    ) -> Result<OperatingSystemCommand<'a>, Error> {
        match seen(text, room) {
            Some(command) => Ok(command),
            None => read_in(text, room),
        }
    }

    /// The owned command of a text. A plain one is made owned where it was seen, and is not moved
    /// before.
    #[inline(never)]
    pub(crate) fn read_owned(
        text: &[u8],
        room: &mut Room,
    ) -> Result<Box<osc::OperatingSystemCommand>, Error> {
        match seen(text, room) {
            Some(command) => Ok(Box::new(command.into_owned())),
            None => read_in(text, room).map(|command| Box::new(command.into_owned())),
        }
    }

    /// The owned command.
    #[inline(always)]
    #[must_use]
    pub fn into_owned(self) -> osc::OperatingSystemCommand {
        use OperatingSystemCommand as Borrowed;
        use osc::OperatingSystemCommand as Command;
        match self {
            Borrowed::SetIconNameAndWindowTitle(text) => {
                Command::SetIconNameAndWindowTitle(text.into())
            }
            Borrowed::SetWindowTitle(text) => Command::SetWindowTitle(text.into()),
            Borrowed::SetWindowTitleSun(text) => Command::SetWindowTitleSun(text.into()),
            Borrowed::SetIconName(text) => Command::SetIconName(text.into()),
            Borrowed::SetIconNameSun(text) => Command::SetIconNameSun(text.into()),
            Borrowed::SetHyperlink(link) => Command::SetHyperlink(link.map(Hyperlink::into_owned)),
            Borrowed::ClearSelection(selection) => Command::ClearSelection(selection),
            Borrowed::QuerySelection(selection) => Command::QuerySelection(selection),
            Borrowed::SetSelection(selection, text) => {
                Command::SetSelection(selection, text.into())
            }
            Borrowed::SystemNotification(text) => Command::SystemNotification(text.into()),
            Borrowed::ITermProprietary(command) => Command::ITermProprietary(command.into_owned()),
            Borrowed::FinalTermSemanticPrompt(prompt) => {
                Command::FinalTermSemanticPrompt(prompt.into_owned())
            }
            Borrowed::CurrentWorkingDirectory(path) => {
                Command::CurrentWorkingDirectory(path.into())
            }
            Borrowed::RxvtExtension(parts) => {
                Command::RxvtExtension(parts.iter().map(String::from).collect())
            }
            Borrowed::Unspecified(parts) => {
                Command::Unspecified(parts.iter().map(Vec::from).collect())
            }
            Borrowed::ChangeColorNumber(pairs) => {
                Command::ChangeColorNumber(pairs.iter().collect())
            }
            Borrowed::ChangeDynamicColors(number, colors) => {
                Command::ChangeDynamicColors(number, colors.iter().collect())
            }
            Borrowed::ResetDynamicColor(number) => Command::ResetDynamicColor(number),
            Borrowed::ResetColors(indices) => Command::ResetColors(indices.iter().collect()),
            Borrowed::ConEmuProgress(progress) => Command::ConEmuProgress(progress),
        }
    }
}

// The command of a text that is plain.
#[inline]
fn seen<'a>(text: &'a [u8], room: &mut Room) -> Option<OperatingSystemCommand<'a>> {
    let command = plain(text)?;
    debug_assert!(read_in(text, room).map_or(true, |it| it == command));
    Some(command)
}

// The command that the library reads.
#[inline(never)]
fn read_in<'a>(text: &[u8], room: &'a mut Room) -> Result<OperatingSystemCommand<'a>, Error> {
    read(text, room, ffi::read_osc, command)
}

// The command of a kind, from its fields.
fn command<'a>(of: u32, fields: &mut Fields<'a>) -> Option<OperatingSystemCommand<'a>> {
    use OperatingSystemCommand as Command;
    Some(match of {
        kind::UNSPECIFIED => Command::Unspecified(List::of(fields)?),
        kind::SET_ICON_NAME_AND_WINDOW_TITLE => {
            Command::SetIconNameAndWindowTitle(fields.text(name::TEXT)?)
        }
        kind::SET_WINDOW_TITLE => Command::SetWindowTitle(fields.text(name::TEXT)?),
        kind::SET_WINDOW_TITLE_SUN => Command::SetWindowTitleSun(fields.text(name::TEXT)?),
        kind::SET_ICON_NAME => Command::SetIconName(fields.text(name::TEXT)?),
        kind::SET_ICON_NAME_SUN => Command::SetIconNameSun(fields.text(name::TEXT)?),
        kind::SET_HYPERLINK if fields.is_empty() => Command::SetHyperlink(None),
        kind::SET_HYPERLINK => Command::SetHyperlink(Some(Hyperlink::of(fields)?)),
        kind::CLEAR_SELECTION => Command::ClearSelection(Selection::of(fields)?),
        kind::QUERY_SELECTION => Command::QuerySelection(Selection::of(fields)?),
        kind::SET_SELECTION => {
            Command::SetSelection(Selection::of(fields)?, fields.text(name::TEXT)?)
        }
        kind::SYSTEM_NOTIFICATION => Command::SystemNotification(fields.text(name::TEXT)?),
        kind::CHANGE_COLOR_NUMBER => Command::ChangeColorNumber(List::of(fields)?),
        kind::CHANGE_DYNAMIC_COLORS => {
            Command::ChangeDynamicColors(DynamicColorNumber::of(fields)?, List::of(fields)?)
        }
        kind::RESET_DYNAMIC_COLOR => Command::ResetDynamicColor(DynamicColorNumber::of(fields)?),
        kind::CURRENT_WORKING_DIRECTORY => {
            Command::CurrentWorkingDirectory(fields.text(name::DIRECTORY)?)
        }
        kind::RESET_COLORS => Command::ResetColors(List::of(fields)?),
        kind::RXVT_EXTENSION => Command::RxvtExtension(List::of(fields)?),
        kind::CONEMU_PROGRESS => Command::ConEmuProgress(Progress::of(fields)?),
        _ => return family(of, fields),
    })
}

// The command of a kind that is a prompt, or one of iTerm2.
fn family<'a>(of: u32, fields: &mut Fields<'a>) -> Option<OperatingSystemCommand<'a>> {
    use OperatingSystemCommand as Command;
    if of < kind::ITERM_SET_MARK {
        FinalTermSemanticPrompt::of(of, fields).map(Command::FinalTermSemanticPrompt)
    } else {
        ITermProprietary::of(of, fields).map(Command::ITermProprietary)
    }
}
