// SPDX-License-Identifier: MIT
//! iTerm2's proprietary commands.
use crate::fields::{Fields, kind, name};
use crate::osc::{self, ITermDimension};
use alloc::boxed::Box;

/// A proprietary command of iTerm2: the operating system command 1337 (iTerm2's documentation,
/// "Proprietary Escape Codes").
#[derive(Clone, Copy, Debug, PartialEq, Eq)]
#[non_exhaustive]
pub enum ITermProprietary<'a> {
    /// Marks this line, so that it can be jumped back to.
    SetMark,
    /// Brings the window before all others.
    StealFocus,
    /// Forgets the lines that have scrolled off.
    ClearScrollback,
    /// The directory that the shell works in.
    CurrentDir(&'a str),
    /// Changes the session's profile to that of this name.
    SetProfile(&'a str),
    /// Puts the text that follows, up to `EndCopy`, into this pasteboard.
    CopyToClipboard(&'a str),
    /// Ends the text that `CopyToClipboard` began.
    EndCopy,
    /// Whether the line of the cursor is highlighted.
    HighlightCursorLine(bool),
    /// Asks for the size of a cell.
    RequestCellSize,
    /// The size of a cell, as the terminal reports it.
    ReportCellSize {
        /// The height of a cell, in tenths of a pixel.
        height_pixels: u32,
        /// The width of a cell, in tenths of a pixel.
        width_pixels: u32,
        /// How many pixels of the display a pixel is, in tenths; none if it was not reported.
        scale: Option<u32>,
    },
    /// Puts this text into the general pasteboard.
    Copy(&'a str),
    /// Asks for the value of the variable of this name. No text is read as it.
    ReportVariable(&'a str),
    /// Sets a variable.
    SetUserVar {
        /// The name of the variable.
        name: &'a str,
        /// Its value.
        value: &'a str,
    },
    /// Sets the format of the session's badge.
    SetBadgeFormat(&'a str),
    /// A file to download, or a picture to show.
    File(ITermFileData<'a>),
    /// Sets, keeps or brings back the version of Unicode by which characters have their widths.
    UnicodeVersion(ITermUnicodeVersionOp<'a>),
}

impl<'a> ITermProprietary<'a> {
    pub(super) fn of(of: u32, fields: &mut Fields<'a>) -> Option<ITermProprietary<'a>> {
        use ITermProprietary as Command;
        Some(match of {
            kind::ITERM_SET_MARK => Command::SetMark,
            kind::ITERM_STEAL_FOCUS => Command::StealFocus,
            kind::ITERM_CLEAR_SCROLLBACK => Command::ClearScrollback,
            kind::ITERM_CURRENT_DIR => Command::CurrentDir(fields.text(name::DIRECTORY)?),
            kind::ITERM_SET_PROFILE => Command::SetProfile(fields.text(name::NAME)?),
            kind::ITERM_COPY_TO_CLIPBOARD => Command::CopyToClipboard(fields.text(name::NAME)?),
            kind::ITERM_END_COPY => Command::EndCopy,
            kind::ITERM_HIGHLIGHT_CURSOR_LINE => {
                Command::HighlightCursorLine(fields.flag(name::HIGHLIGHTED)?)
            }
            kind::ITERM_REQUEST_CELL_SIZE => Command::RequestCellSize,
            kind::ITERM_REPORT_CELL_SIZE => Command::ReportCellSize {
                height_pixels: fields.number(name::CELL_HEIGHT)?,
                width_pixels: fields.number(name::CELL_WIDTH)?,
                scale: fields.optional(name::SCALE)?,
            },
            kind::ITERM_COPY => Command::Copy(fields.text(name::TEXT)?),
            kind::ITERM_REPORT_VARIABLE => Command::ReportVariable(fields.text(name::NAME)?),
            kind::ITERM_SET_USER_VAR => Command::SetUserVar {
                name: fields.text(name::NAME)?,
                value: fields.text(name::VALUE)?,
            },
            kind::ITERM_SET_BADGE_FORMAT => Command::SetBadgeFormat(fields.text(name::TEXT)?),
            kind::ITERM_FILE => Command::File(ITermFileData::of(fields)?),
            _ => Command::UnicodeVersion(ITermUnicodeVersionOp::of(of, fields)?),
        })
    }

    /// The owned command.
    #[must_use]
    pub fn into_owned(self) -> osc::ITermProprietary {
        use ITermProprietary as Borrowed;
        use osc::ITermProprietary as Command;
        match self {
            Borrowed::SetMark => Command::SetMark,
            Borrowed::StealFocus => Command::StealFocus,
            Borrowed::ClearScrollback => Command::ClearScrollback,
            Borrowed::CurrentDir(path) => Command::CurrentDir(path.into()),
            Borrowed::SetProfile(name) => Command::SetProfile(name.into()),
            Borrowed::CopyToClipboard(name) => Command::CopyToClipboard(name.into()),
            Borrowed::EndCopy => Command::EndCopy,
            Borrowed::HighlightCursorLine(on) => Command::HighlightCursorLine(on),
            Borrowed::RequestCellSize => Command::RequestCellSize,
            Borrowed::ReportCellSize {
                height_pixels,
                width_pixels,
                scale,
            } => Command::ReportCellSize {
                height_pixels,
                width_pixels,
                scale,
            },
            Borrowed::Copy(text) => Command::Copy(text.into()),
            Borrowed::ReportVariable(name) => Command::ReportVariable(name.into()),
            Borrowed::SetUserVar { name, value } => Command::SetUserVar {
                name: name.into(),
                value: value.into(),
            },
            Borrowed::SetBadgeFormat(text) => Command::SetBadgeFormat(text.into()),
            Borrowed::File(file) => Command::File(Box::new(file.into_owned())),
            Borrowed::UnicodeVersion(version) => Command::UnicodeVersion(version.into_owned()),
        }
    }
}

/// A change of the version of Unicode by which characters have their widths (iTerm2's
/// documentation, "Unicode Version").
#[derive(Clone, Copy, Debug, PartialEq, Eq)]
pub enum ITermUnicodeVersionOp<'a> {
    /// Sets the version.
    Set(u8),
    /// Keeps the version on a stack, under a label if there is one.
    Push(Option<&'a str>),
    /// Sets the version that was kept last, or that under the label, and drops what was kept since.
    Pop(Option<&'a str>),
}

impl<'a> ITermUnicodeVersionOp<'a> {
    fn of(of: u32, fields: &mut Fields<'a>) -> Option<ITermUnicodeVersionOp<'a>> {
        Some(match of {
            kind::ITERM_SET_UNICODE_VERSION => {
                ITermUnicodeVersionOp::Set(fields.number(name::VERSION)?)
            }
            kind::ITERM_PUSH_UNICODE_VERSION => {
                ITermUnicodeVersionOp::Push(fields.optional_text(name::LABEL)?)
            }
            kind::ITERM_POP_UNICODE_VERSION => {
                ITermUnicodeVersionOp::Pop(fields.optional_text(name::LABEL)?)
            }
            _ => return None,
        })
    }

    /// The owned value.
    #[must_use]
    pub fn into_owned(self) -> osc::ITermUnicodeVersionOp {
        use osc::ITermUnicodeVersionOp as Op;
        match self {
            ITermUnicodeVersionOp::Set(version) => Op::Set(version),
            ITermUnicodeVersionOp::Push(label) => Op::Push(label.map(Into::into)),
            ITermUnicodeVersionOp::Pop(label) => Op::Pop(label.map(Into::into)),
        }
    }
}

/// A file that is sent to the terminal, to be stored or shown (iTerm2's documentation, "Inline
/// Images Protocol").
#[derive(Clone, Copy, Debug, PartialEq, Eq)]
pub struct ITermFileData<'a> {
    /// Its name, if it has one.
    pub name: Option<&'a str>,
    /// Its size in bytes, if it is given. It need not be that of the content.
    pub size: Option<usize>,
    /// The width at which it is shown.
    pub width: ITermDimension,
    /// The height at which it is shown.
    pub height: ITermDimension,
    /// Whether its width and height keep their ratio.
    pub preserve_aspect_ratio: bool,
    /// Whether it is shown. If it is not, it is stored.
    pub inline: bool,
    /// Whether the cursor stays where it is.
    pub do_not_move_cursor: bool,
    /// Its content.
    pub data: &'a [u8],
}

impl<'a> ITermFileData<'a> {
    fn of(fields: &mut Fields<'a>) -> Option<ITermFileData<'a>> {
        Some(ITermFileData {
            name: fields.optional_text(name::NAME)?,
            size: if fields.has(name::SIZE) {
                Some(fields.size(name::SIZE)?)
            } else {
                None
            },
            width: ITermDimension::of(WIDTHS, fields)?,
            height: ITermDimension::of(HEIGHTS, fields)?,
            preserve_aspect_ratio: fields.flag(name::PRESERVE_ASPECT_RATIO)?,
            inline: fields.flag(name::INLINE)?,
            do_not_move_cursor: fields.flag(name::DO_NOT_MOVE_CURSOR)?,
            data: fields.bytes(name::CONTENT)?,
        })
    }

    /// The owned file.
    #[must_use]
    pub fn into_owned(self) -> osc::ITermFileData {
        osc::ITermFileData {
            name: self.name.map(Into::into),
            size: self.size,
            width: self.width,
            height: self.height,
            preserve_aspect_ratio: self.preserve_aspect_ratio,
            inline: self.inline,
            do_not_move_cursor: self.do_not_move_cursor,
            data: self.data.into(),
        }
    }
}

// The names of a dimension in cells, in pixels and as a percentage.
const WIDTHS: [u32; 3] = [name::WIDTH_CELLS, name::WIDTH_PIXELS, name::WIDTH_PERCENT];
const HEIGHTS: [u32; 3] = [
    name::HEIGHT_CELLS,
    name::HEIGHT_PIXELS,
    name::HEIGHT_PERCENT,
];
