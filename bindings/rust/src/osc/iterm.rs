// SPDX-License-Identifier: MIT
//! iTerm2's proprietary commands.
use crate::fields::Fields;
use alloc::boxed::Box;
use alloc::string::String;
use alloc::vec::Vec;

/// A proprietary command of iTerm2: the operating system command 1337 (iTerm2's documentation,
/// "Proprietary Escape Codes").
#[derive(Clone, Debug, PartialEq, Eq)]
#[cfg_attr(feature = "serde", derive(serde::Serialize, serde::Deserialize))]
#[non_exhaustive]
pub enum ITermProprietary {
    /// Marks this line, so that it can be jumped back to.
    SetMark,
    /// Brings the window before all others.
    StealFocus,
    /// Forgets the lines that have scrolled off.
    ClearScrollback,
    /// The directory that the shell works in.
    CurrentDir(String),
    /// Changes the session's profile to that of this name.
    SetProfile(String),
    /// Puts the text that follows, up to `EndCopy`, into this pasteboard.
    CopyToClipboard(String),
    /// Ends the text that `CopyToClipboard` began.
    EndCopy,
    /// Whether the line of the cursor is highlighted.
    HighlightCursorLine(bool),
    /// Asks for the size of a cell.
    RequestCellSize,
    /// The size of a cell, as the terminal reports it.
    ReportCellSize {
        /// The height of a cell, in tenths of a pixel.
        height_pixels: u32,
        /// The width of a cell, in tenths of a pixel.
        width_pixels: u32,
        /// How many pixels of the display a pixel is, in tenths; none if it was not reported.
        scale: Option<u32>,
    },
    /// Puts this text into the general pasteboard.
    Copy(String),
    /// Asks for the value of the variable of this name. No text is read as it.
    ReportVariable(String),
    /// Sets a variable.
    SetUserVar {
        /// The name of the variable.
        name: String,
        /// Its value.
        value: String,
    },
    /// Sets the format of the session's badge.
    SetBadgeFormat(String),
    /// A file to download, or a picture to show.
    File(Box<ITermFileData>),
    /// Sets, keeps or brings back the version of Unicode by which characters have their widths.
    UnicodeVersion(ITermUnicodeVersionOp),
}

/// A change of the version of Unicode by which characters have their widths (iTerm2's
/// documentation, "Unicode Version").
#[derive(Clone, Debug, PartialEq, Eq)]
#[cfg_attr(feature = "serde", derive(serde::Serialize, serde::Deserialize))]
pub enum ITermUnicodeVersionOp {
    /// Sets the version.
    Set(u8),
    /// Keeps the version on a stack, under a label if there is one.
    Push(Option<String>),
    /// Sets the version that was kept last, or that under the label, and drops what was kept since.
    Pop(Option<String>),
}

/// A file that is sent to the terminal, to be stored or shown (iTerm2's documentation, "Inline
/// Images Protocol").
#[derive(Clone, Debug, PartialEq, Eq)]
#[cfg_attr(feature = "serde", derive(serde::Serialize, serde::Deserialize))]
pub struct ITermFileData {
    /// Its name, if it has one.
    pub name: Option<String>,
    /// Its size in bytes, if it is given. It need not be that of the content.
    pub size: Option<usize>,
    /// The width at which it is shown.
    pub width: ITermDimension,
    /// The height at which it is shown.
    pub height: ITermDimension,
    /// Whether its width and height keep their ratio.
    pub preserve_aspect_ratio: bool,
    /// Whether it is shown. If it is not, it is stored.
    pub inline: bool,
    /// Whether the cursor stays where it is.
    pub do_not_move_cursor: bool,
    /// Its content.
    pub data: Vec<u8>,
}

/// The width or the height at which a file is shown. A negative number counts as 0.
#[derive(Clone, Copy, Debug, Default, PartialEq, Eq, Hash)]
#[cfg_attr(feature = "serde", derive(serde::Serialize, serde::Deserialize))]
pub enum ITermDimension {
    /// As large as the file itself is.
    #[default]
    Automatic,
    /// So many cells of characters.
    Cells(i64),
    /// So many pixels.
    Pixels(i64),
    /// This percentage of the window.
    Percent(i64),
}

impl ITermDimension {
    pub(crate) fn of(names: [u32; 3], fields: &mut Fields<'_>) -> Option<ITermDimension> {
        let [cells, pixels, percent] = names;
        Some(if fields.has(cells) {
            ITermDimension::Cells(fields.number(cells)?)
        } else if fields.has(pixels) {
            ITermDimension::Pixels(fields.number(pixels)?)
        } else if fields.has(percent) {
            ITermDimension::Percent(fields.number(percent)?)
        } else {
            ITermDimension::Automatic
        })
    }
}
