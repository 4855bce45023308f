// SPDX-License-Identifier: MIT
//! The values of commands.
use crate::fields::{Fields, name};
use alloc::collections::BTreeMap;
use alloc::string::String;
use core::ops::BitOr;

/// A hyperlink: the address of the characters after it ("Hyperlinks in terminal emulators", the
/// command OSC 8).
#[derive(Clone, Debug, PartialEq, Eq)]
#[cfg_attr(feature = "serde", derive(serde::Serialize, serde::Deserialize))]
pub struct Hyperlink {
    /// The parameters, with their keys. The key `id` is that of the link: cells of one id and one
    /// address are one link.
    pub params: BTreeMap<String, String>,
    /// The address.
    pub uri: String,
    /// Whether the terminal found it in the text itself. A link that is read has false.
    pub implicit: bool,
}

impl Hyperlink {
    /// A link to this address, without parameters.
    pub fn new(uri: impl Into<String>) -> Hyperlink {
        Hyperlink {
            params: BTreeMap::new(),
            uri: uri.into(),
            implicit: false,
        }
    }

    /// A link to this address with an id.
    pub fn new_with_id(uri: impl Into<String>, id: impl Into<String>) -> Hyperlink {
        let mut link = Hyperlink::new(uri);
        link.params.insert("id".into(), id.into());
        link
    }

    /// The address.
    pub fn uri(&self) -> &str {
        &self.uri
    }

    /// The parameters, with their keys.
    pub fn params(&self) -> &BTreeMap<String, String> {
        &self.params
    }
}

/// Which selections, as a set of bits (xterm's list of control sequences, "Manipulate Selection
/// Data").
#[derive(Clone, Copy, Debug, Default, PartialEq, Eq, Hash)]
#[cfg_attr(feature = "serde", derive(serde::Serialize, serde::Deserialize))]
pub struct Selection(u16);

impl Selection {
    /// No selection.
    pub const NONE: Selection = Selection(0);

    /// The clipboard, letter `c`.
    pub const CLIPBOARD: Selection = Selection(2);

    /// The primary selection, letter `p`.
    pub const PRIMARY: Selection = Selection(4);

    /// The selection that the terminal is configured to use, letter `s`.
    pub const SELECT: Selection = Selection(8);

    /// Cut buffer 0, letter `0`.
    pub const CUT0: Selection = Selection(16);

    /// Cut buffer 1.
    pub const CUT1: Selection = Selection(32);

    /// Cut buffer 2.
    pub const CUT2: Selection = Selection(64);

    /// Cut buffer 3.
    pub const CUT3: Selection = Selection(128);

    /// Cut buffer 4.
    pub const CUT4: Selection = Selection(256);

    /// Cut buffer 5.
    pub const CUT5: Selection = Selection(512);

    /// Cut buffer 6.
    pub const CUT6: Selection = Selection(1024);

    /// Cut buffer 7.
    pub const CUT7: Selection = Selection(2048);

    /// Cut buffer 8.
    pub const CUT8: Selection = Selection(4096);

    /// Cut buffer 9.
    pub const CUT9: Selection = Selection(8192);

    /// The bits.
    pub fn bits(self) -> u16 {
        self.0
    }

    /// Whether it has every bit of `other`.
    pub fn contains(self, other: Selection) -> bool {
        self.0 & other.0 == other.0
    }

    pub(crate) fn of(fields: &mut Fields<'_>) -> Option<Selection> {
        fields.number(name::SELECTION).map(Selection)
    }
}

impl BitOr for Selection {
    type Output = Selection;

    fn bitor(self, other: Selection) -> Selection {
        Selection(self.0 | other.0)
    }
}

/// A colour: how much red, green and blue, each from 0 to 65535.
#[derive(Clone, Copy, Debug, PartialEq, Eq, Hash)]
#[cfg_attr(feature = "serde", derive(serde::Serialize, serde::Deserialize))]
pub struct Color16 {
    /// Red.
    pub red: u16,
    /// Green.
    pub green: u16,
    /// Blue.
    pub blue: u16,
}

/// A colour, or the question which it is.
#[derive(Clone, Copy, Debug, PartialEq, Eq, Hash)]
#[cfg_attr(feature = "serde", derive(serde::Serialize, serde::Deserialize))]
pub enum ColorOrQuery {
    /// This colour.
    Color(Color16),
    /// Asks for the colour.
    Query,
}

impl ColorOrQuery {
    pub(crate) fn of(fields: &mut Fields<'_>) -> Option<ColorOrQuery> {
        if fields.has(name::QUERY) {
            fields.flag(name::QUERY)?;
            return Some(ColorOrQuery::Query);
        }
        Some(ColorOrQuery::Color(Color16 {
            red: fields.number(name::RED)?,
            green: fields.number(name::GREEN)?,
            blue: fields.number(name::BLUE)?,
        }))
    }
}

/// A place of the palette, and the colour that it is to have, or the question which it has.
#[derive(Clone, Copy, Debug, PartialEq, Eq, Hash)]
#[cfg_attr(feature = "serde", derive(serde::Serialize, serde::Deserialize))]
pub struct ChangeColorPair {
    /// The place, from 0 to 255.
    pub palette_index: u8,
    /// The colour.
    pub color: ColorOrQuery,
}

impl ChangeColorPair {
    pub(crate) fn of(fields: &mut Fields<'_>) -> Option<ChangeColorPair> {
        Some(ChangeColorPair {
            palette_index: fields.number(name::PALETTE_INDEX)?,
            color: ColorOrQuery::of(fields)?,
        })
    }
}

/// A colour that a program may change, ask for and reset (xterm's list of control sequences, "VT100
/// text colors" and on). Its number is that of the code which changes it.
#[derive(Clone, Copy, Debug, PartialEq, Eq, Hash)]
#[cfg_attr(feature = "serde", derive(serde::Serialize, serde::Deserialize))]
pub enum DynamicColorNumber {
    /// The colour of the foreground of text.
    TextForegroundColor = 10,
    /// The colour of the background of text.
    TextBackgroundColor = 11,
    /// The colour of the text cursor.
    TextCursorColor = 12,
    /// The colour of the foreground of the pointer.
    MouseForegroundColor = 13,
    /// The colour of the background of the pointer.
    MouseBackgroundColor = 14,
    /// The colour of the foreground in Tektronix mode.
    TektronixForegroundColor = 15,
    /// The colour of the background in Tektronix mode.
    TektronixBackgroundColor = 16,
    /// The colour of the background of highlighted text.
    HighlightBackgroundColor = 17,
    /// The colour of the cursor in Tektronix mode.
    TektronixCursorColor = 18,
    /// The colour of the foreground of highlighted text.
    HighlightForegroundColor = 19,
}

impl DynamicColorNumber {
    pub(crate) fn of(fields: &mut Fields<'_>) -> Option<DynamicColorNumber> {
        Some(match fields.number::<u8>(name::DYNAMIC_COLOR)? {
            10 => DynamicColorNumber::TextForegroundColor,
            11 => DynamicColorNumber::TextBackgroundColor,
            12 => DynamicColorNumber::TextCursorColor,
            13 => DynamicColorNumber::MouseForegroundColor,
            14 => DynamicColorNumber::MouseBackgroundColor,
            15 => DynamicColorNumber::TektronixForegroundColor,
            16 => DynamicColorNumber::TektronixBackgroundColor,
            17 => DynamicColorNumber::HighlightBackgroundColor,
            18 => DynamicColorNumber::TektronixCursorColor,
            19 => DynamicColorNumber::HighlightForegroundColor,
            _ => return None,
        })
    }
}

/// The progress of a task, as ConEmu shows it (its "ANSI X3.64 and Xterm 256 colors", OSC 9;4).
#[derive(Clone, Copy, Debug, PartialEq, Eq, Hash)]
#[cfg_attr(feature = "serde", derive(serde::Serialize, serde::Deserialize))]
pub enum Progress {
    /// None is shown.
    None,
    /// So many per cent, at most 100.
    SetPercentage(u8),
    /// An error, at so many per cent.
    SetError(u8),
    /// It goes on, for nobody knows how long.
    SetIndeterminate,
    /// It pauses.
    Paused,
}

impl Progress {
    pub(crate) fn of(fields: &mut Fields<'_>) -> Option<Progress> {
        Some(match fields.number::<u8>(name::PROGRESS_STATE)? {
            0 => Progress::None,
            1 => Progress::SetPercentage(fields.number(name::PERCENT)?),
            2 => Progress::SetError(fields.number(name::PERCENT)?),
            3 => Progress::SetIndeterminate,
            4 => Progress::Paused,
            _ => return None,
        })
    }
}
